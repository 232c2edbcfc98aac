// The picture: the rows, the arrows of wake-ups, and the stories. It is drawn onto X, which is the canvas, or a Strokes that makes SVG.
let X = C.getContext("2d");
const MONO = "ui-monospace, 'DejaVu Sans Mono', monospace", SANS = "system-ui, 'DejaVu Sans', sans-serif";
const DARK = matchMedia("(prefers-color-scheme: dark)");
const INKS = "ground panel ink soft line quiet head accent accent-ground bad on-bad due mark hit".split(" ");
const THIN = ["idle", "nil", "free", "closed"];
const ARROWS = 400; // if more wake-ups are in view, none is drawn
let ink = {}, shadeOf = {}, density = null;

// Reads the style sheet's colours, and the shades for a light or a dark background.
function readColours() {
  const style = getComputedStyle(document.documentElement);
  ink = {};
  for (const name of INKS) {
    ink[name] = style.getPropertyValue(`--${name}`).trim();
  }
  const theme = DARK.matches ? "dark" : "light";
  shadeOf = Object.fromEntries(Object.entries(D.shades).map(([name, shade]) => [name, shade[theme]]));
}

function draw() {
  measure();
  const scale = devicePixelRatio || 1, wide = G.wide, high = G.tall;
  if (C.width !== Math.round(wide * scale) || C.height !== Math.round(high * scale)) {
    C.width = Math.round(wide * scale);
    C.height = Math.round(high * scale);
  }
  X.setTransform(scale, 0, 0, scale, 0, 0);
  drawAll(wide, high);
}

function drawAll(wide, high) {
  X.fillStyle = ink.ground;
  X.fillRect(0, 0, wide, high);
  X.textBaseline = "middle";
  X.lineWidth = 1;
  drawBody(wide, high);
  X.fillStyle = ink.panel;
  X.fillRect(0, 0, wide, V.head);
  drawOverview(wide);
  drawRuler(wide);
  X.fillStyle = ink.line;
  X.fillRect(0, V.head - 1, wide, 1);
  X.save();
  X.beginPath();
  X.rect(labels() - 9, 0, wide, high);
  X.clip();
  drawStory(high);
  X.restore();
}

// Draws the columns, the rows over them, the arrows over the rows, and the scroll bar.
function drawBody(wide, high) {
  X.save();
  X.beginPath();
  X.rect(0, V.head, wide, high - V.head);
  X.clip();
  drawColumns(wide, high);
  const middles = drawRows(wide, high);
  X.beginPath();
  X.rect(labels(), V.head, wide - labels(), high - V.head);
  X.clip();
  if (room() / V.span > 1.2) drawArrows(middles);
  X.restore();
  const all = V.rows.length * V.high, tall = high - V.head;
  if (all > tall) {
    X.fillStyle = ink.line;
    X.fillRect(wide - 5, V.head + (V.top / all) * tall, 4, Math.max((tall / all) * tall, 14));
  }
}

// The part without netrev's values, the chosen span and position, and the steps that were found.
function drawColumns(wide, high) {
  const column = (from, to, least) => {
    const x = Math.max(xOf(from), labels());
    if (xOf(to) >= labels() && x <= wide) X.fillRect(x, V.head, Math.max(xOf(to) - x, least), high);
  };
  X.globalAlpha = 0.3;
  X.fillStyle = ink.hit;
  for (const at of V.hits) if (at >= V.from - 1 && at <= V.from + V.span) column(at, at + 1, 1);
  X.globalAlpha = 1;
  X.fillStyle = ink["accent-ground"];
  if (V.picked) column(V.picked.from, V.picked.to + 1, 1);
  column(V.chosen, V.chosen + 1, 2);
  if (LIVE) drawStand(high);
}

// The vertical middle of the row with this name at a position. A descriptor has a row for each socket that uses it.
function middleOf(middles, name, position) {
  const rows = middles[name] || [];
  return rows.find(({ row }) => row.begins === undefined || (row.begins <= position && position < row.ends))?.y;
}

// Draws the rows in view. Returns the vertical middles of all rows, by name.
function drawRows(wide, high) {
  const middles = {};
  V.rows.forEach((row, at) => {
    const y = V.head - V.top + at * V.high;
    if (row.name) (middles[row.name] ??= []).push({ row, y: y + V.high / 2 });
    if (y < V.head - V.high || y > high) return;
    if (row.head) drawHead(row, y, wide);
    else if (row.kind === "clock") drawClock(row, y, wide);
    else if (row.kind === "call") drawCalls(row, y, wide);
    else drawRow(row, y, wide);
    if (!row.head) drawLabel(row, y);
  });
  return middles;
}

function drawHead(row, y, wide) {
  const middle = y + V.high / 2 + 0.5, sign = row.socket === undefined ? "" : row.isFolded ? "▸ " : "▾ ";
  X.fillStyle = ink.head;
  X.fillRect(0, y + 1, wide, V.high - 2);
  for (const one of row.folded ?? []) drawFolded(one, y, wide);
  X.fillStyle = row.isBad ? ink.bad : ink.soft;
  X.font = `600 11px ${SANS}`;
  X.fillText(sign + row.head, 8, middle);
  const from = 14 + X.measureText(sign + row.head).width;
  X.font = `11px ${SANS}`;
  X.fillStyle = ink.soft;
  if (!row.isFolded) X.fillText(row.said, from, middle);
}

// Draws a row's calls in the head of the row's connection, because that connection is folded.
function drawFolded(row, y, wide) {
  let last = -1;
  for (const call of callsIn(row, V.from, V.from + V.span)) {
    const x = Math.max(xOf(call.first - 1), labels()), right = Math.min(xOf(untilOf(call)), wide);
    if (right < labels() || (right - last < 0.5 && call.state === DONE)) continue;
    last = right;
    X.fillStyle = colourOf(call);
    X.globalAlpha = call.state === FAILED || call.state === HANGS ? 0.9 : 0.3;
    X.fillRect(x, y + 5, Math.max(right - x, 1), V.high - 10);
  }
  X.globalAlpha = 1;
}

function drawLabel(row, y) {
  X.fillStyle = keyOf(row) === V.row ? ink.head : ink.ground;
  X.fillRect(0, y, labels() - 1, V.high);
  X.fillStyle = { due: ink.due, clock: ink.soft, call: ink.accent }[row.kind] || ink.ink;
  X.font = `${row.kind === "call" ? "600 " : ""}${labels() < 100 ? 10 : 11.5}px ${SANS}`;
  const from = row.kind === "due" ? 20 : 12, sign = PINNED.has(keyOf(row)) ? "• " : "";
  X.fillText(fit(sign + row.title, labels() - from - 4), from, y + V.high / 2 + 0.5);
}

// The runs of a row, each as a bar. A run in which nothing happens has a thin bar.
function drawRow(row, y, wide) {
  const to = V.from + V.span, runs = row.runs, left = labels();
  const begins = row.begins ?? -1, ends = row.ends ?? Infinity;
  let last = -1;
  X.font = `11px ${MONO}`;
  for (let at = Math.max(place(runs, V.from), 0); at < runs.length && runs[at][0] <= to; at++) {
    const shade = row.shades[at];
    const from = Math.max(runs[at][0], begins), until = Math.min(at + 1 < runs.length ? runs[at + 1][0] : D.last + 1, ends);
    if (!shade || shade === "gone" || until <= from) continue;
    const x = Math.max(xOf(from), left), right = Math.min(xOf(until), wide);
    if (right < left || right - last < 0.5) continue;
    last = right;
    drawBar(row, shade, runs[at][1], x, right - x, y);
  }
  if (row.waits?.length) drawWaits(row, y, wide);
}

function drawBar(row, shade, value, x, wide, y) {
  const middle = y + V.high / 2;
  if (row.kind === "due") {
    X.fillStyle = shade === "passed" ? ink.bad : ink.due;
    X.globalAlpha = shade === "passed" ? 0.85 : 0.6;
    X.fillRect(x, middle - (shade === "passed" ? 3 : 1.5), Math.max(wide, 1), shade === "passed" ? 6 : 3);
    X.globalAlpha = 1;
    if (shade === "due" && wide > 2) X.fillRect(x + wide - 1.5, middle - 4, 1.5, 8);
    return;
  }
  X.fillStyle = shadeOf[shade] || ink.soft;
  if (THIN.includes(shade)) return X.fillRect(x, middle - 2, Math.max(wide, 0.7), 4);
  X.fillRect(x, y + 2.5, Math.max(wide - (wide > 3 ? 1 : 0), 0.8), V.high - 5);
  if (wide < 28) return;
  X.fillStyle = textOn(shadeOf[shade]);
  X.fillText(fit(shown(row, value), wide - 8), x + 4, middle + 0.5);
}

// The clock: a bar for each time, with the time as text if it fits.
function drawClock(row, y, wide) {
  const runs = row.runs;
  let last = -9;
  X.font = `10.5px ${MONO}`;
  for (let at = Math.max(place(runs, V.from), 0); at < runs.length && runs[at][0] <= V.from + V.span; at++) {
    const x = Math.max(xOf(runs[at][0]), labels()), right = Math.min(xOf(at + 1 < runs.length ? runs[at + 1][0] : D.last + 1), wide);
    if (x - last > 2) {
      X.fillStyle = ink.line;
      X.fillRect(x, y + 3, 1, V.high - 6);
      last = x;
    }
    X.fillStyle = ink.soft;
    if (right - x > 30) X.fillText(fit(time(Number(runs[at][1])), right - x - 8), x + 4, y + V.high / 2 + 0.5);
  }
}

// The wake-ups in view; none if there are too many. An arrow has a step and two heights: the middle
// of the waker's row (or, without a waker, of the row in which the wake-up happened), and the middle of the woken goroutine's row.
function arrows(middles) {
  const seen = D.wakes.filter(([step]) => step >= V.from - 1 && step <= V.from + V.span + 1);
  if (seen.length > ARROWS) return [];
  return seen.map(([step, who, by, where]) => {
    const slept = (name) => middleOf(middles, name, step - 1);
    return [step, (by === null ? undefined : slept(`gor ${by}`)) ?? slept(where), slept(`gor ${who}`)];
  });
}

function drawArrows(middles) {
  X.strokeStyle = X.fillStyle = ink.accent;
  for (const [step, from, to] of arrows(middles)) {
    if (from === undefined || to === undefined || from === to) continue;
    const x = xOf(step), bend = Math.min(16, 4 + room() / V.span);
    X.lineWidth = 1.4;
    X.beginPath();
    X.moveTo(x, from);
    X.bezierCurveTo(x - bend, from, x - bend, to, x - 1, to);
    X.stroke();
    X.beginPath();
    X.moveTo(x + 3, to);
    X.lineTo(x - 4, to - 4);
    X.lineTo(x - 4, to + 4);
    X.fill();
    X.beginPath();
    X.arc(x, from, 2, 0, 7);
    X.fill();
  }
  X.lineWidth = 1;
}

// As much of a text as fits.
function fit(text, wide) {
  const whole = wide < 12 ? Infinity : X.measureText(text).width;
  if (whole <= wide) return text;
  const letters = Math.floor((text.length * (wide - 9)) / whole);
  return letters < 2 ? "" : `${text.slice(0, letters)}…`;
}

function luminance(colour) {
  const [red, green, blue] = [1, 3, 5].map((at) => parseInt(colour.slice(at, at + 2), 16) / 255);
  const light = (part) => (part <= 0.04045 ? part / 12.92 : ((part + 0.055) / 1.055) ** 2.4);
  return 0.2126 * light(red) + 0.7152 * light(green) + 0.0722 * light(blue);
}

// White or black, whichever contrasts more with a colour.
function textOn(colour) {
  return luminance(colour) < 0.185 ? "#ffffff" : "#0d131b";
}

// The text of a bar.
function shown(row, value) {
  if (row.kind !== "sock") return value;
  return wordsOf("lock", value).replace(/, (\d+) references?/, " · $1 ref").replace(/^(\d+) references?/, "$1 ref");
}
