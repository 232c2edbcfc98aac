// Saves the view as a picture: as PNG from the canvas, or as SVG from Strokes, which records each stroke.
const round = (number) => Math.round(number * 100) / 100;
const PAINTS = ["fillStyle", "strokeStyle", "globalAlpha", "lineWidth", "font", "textAlign"];
const ESCAPES = { "&": "&amp;", "<": "&lt;", ">": "&gt;", '"': "&quot;" };
const escaped = (text) => String(text).replace(/[&<>"]/g, (letter) => ESCAPES[letter]);

// Strokes has the canvas's drawing methods, and turns each stroke into an SVG element.
class Strokes {
  constructor(measuring) {
    Object.assign(this, { measuring, parts: [], path: [], kept: [], clips: 0, clipped: "", place: [1, 0, 0, 1, 0, 0], dashes: "" });
    Object.assign(this, { fillStyle: "#000000", strokeStyle: "#000000", globalAlpha: 1, lineWidth: 1, font: "11px sans-serif", textAlign: "left" });
  }

  element(name, attributes, inner = "") {
    const [a, b, c, d, e, f] = this.place.map(round);
    const more = { ...attributes, "clip-path": this.clipped };
    if (this.globalAlpha < 1) more.opacity = round(this.globalAlpha);
    if (a !== 1 || b || c || d !== 1 || e || f) more.transform = `matrix(${a} ${b} ${c} ${d} ${e} ${f})`;
    const told = Object.entries(more).filter(([, value]) => value !== "").map(([key, value]) => ` ${key}="${escaped(value)}"`);
    this.parts.push(`<${name}${told.join("")}>${inner}</${name}>`);
  }

  measureText(text) { this.measuring.font = this.font; return this.measuring.measureText(text); }
  setTransform() {}
  setLineDash(dashes) { this.dashes = dashes.join(" "); }

  save() {
    this.kept.push({ place: [...this.place], clipped: this.clipped, paints: PAINTS.map((name) => this[name]) });
  }

  restore() {
    const { place, clipped, paints } = this.kept.pop();
    Object.assign(this, { place, clipped });
    PAINTS.forEach((name, at) => { this[name] = paints[at]; });
  }

  translate(x, y) {
    const [a, b, c, d, e, f] = this.place;
    this.place = [a, b, c, d, a * x + c * y + e, b * x + d * y + f];
  }

  rotate(angle) {
    const [a, b, c, d, e, f] = this.place, cos = Math.cos(angle), sin = Math.sin(angle);
    this.place = [a * cos + c * sin, b * cos + d * sin, c * cos - a * sin, d * cos - b * sin, e, f];
  }

  fillRect(x, y, width, height) {
    if (width > 0 && height > 0) this.element("rect", { x: round(x), y: round(y), width: round(width), height: round(height), fill: this.fillStyle });
  }

  strokeRect(x, y, width, height) {
    const box = { x: round(x), y: round(y), width: round(Math.max(width, 0)), height: round(Math.max(height, 0)) };
    this.element("rect", { ...box, fill: "none", stroke: this.strokeStyle, "stroke-width": this.lineWidth });
  }

  fillText(text, x, y) {
    const [, weight = "", size, family] = /^(?:(\d+) )?([\d.]+)px (.*)$/.exec(this.font);
    const anchor = this.textAlign === "center" ? "middle" : "";
    const style = { "font-size": size, "font-family": family, "font-weight": weight, fill: this.fillStyle, "text-anchor": anchor };
    if (text) this.element("text", { x: round(x), y: round(y + Number(size) * 0.35), ...style }, escaped(text));
  }

  beginPath() { this.path = []; }
  moveTo(x, y) { this.path.push(`M${round(x)} ${round(y)}`); }
  lineTo(x, y) { this.path.push(`L${round(x)} ${round(y)}`); }
  bezierCurveTo(...to) { this.path.push(`C${to.map(round).join(" ")}`); }
  rect(x, y, width, height) { this.path.push(`M${round(x)} ${round(y)}h${round(width)}v${round(height)}h${round(-width)}z`); }
  arc(x, y, size) { this.path.push(`M${round(x - size)} ${round(y)}a${size} ${size} 0 1 0 ${2 * size} 0a${size} ${size} 0 1 0 ${-2 * size} 0`); }
  fill() { this.element("path", { d: this.path.join(""), fill: this.fillStyle }); }
  stroke() { this.element("path", { d: this.path.join(""), fill: "none", stroke: this.strokeStyle, "stroke-width": this.lineWidth, "stroke-dasharray": this.dashes }); }

  clip() {
    const name = `clip${++this.clips}`;
    this.parts.push(`<clipPath id="${name}"><path d="${this.path.join("")}"/></clipPath>`);
    this.clipped = `url(#${name})`;
  }
}

// The view as SVG, described by the chosen story's text.
function svgOf() {
  const canvas = X, wide = C.clientWidth, high = C.clientHeight, strokes = new Strokes(canvas);
  X = strokes;
  try { drawAll(wide, high); } finally { X = canvas; }
  const story = storyNow(), says = story ? `${story.rule}: ${story.says}` : "";
  const head = `<svg xmlns="http://www.w3.org/2000/svg" width="${wide}" height="${high}" viewBox="0 0 ${wide} ${high}" role="img">`;
  return `${head}<title>${escaped(D.name)}</title><desc>${escaped(says)}</desc>${strokes.parts.join("")}</svg>\n`;
}

function saveAs(blob, ending) {
  const link = element("a");
  link.href = URL.createObjectURL(blob);
  link.download = `${(D.name || "netrev").replace(/\.jsonl$/, "")}${ending}`;
  link.click();
  setTimeout(() => URL.revokeObjectURL(link.href), 1000);
  $("said").textContent = `saved: ${link.download}`;
}

const saveSvg = () => saveAs(new Blob([svgOf()], { type: "image/svg+xml" }), ".svg");
const savePng = () => C.toBlob((blob) => saveAs(blob, ".png"), "image/png");
