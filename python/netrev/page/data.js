// D is the page's data. The functions here look up runs of cells, steps and changes in it. LIVE is null if the page is a file; in the page
// of a shared session, it has the functions that ask the session. D.first to D.last is the part of the run for which the page has netrev's
// values; the calls and stories are those of the whole run.
const $ = (name) => document.getElementById(name);
const BEGIN = 0, END = D.length;
const COUNT = END - BEGIN + 1;
const SIDES = { r: "read", w: "write" };

// The index of the run that contains a position; -1 before the first run.
function place(runs, position) {
  let low = 0, high = runs.length;
  while (low < high) {
    const middle = (low + high) >> 1;
    if (runs[middle][0] <= position) low = middle + 1;
    else high = middle;
  }
  return low - 1;
}

// Whether the page has netrev's values at a position.
const isHere = (position) => position >= D.first && position <= D.last;

// The value of a cell at a position of the part.
function valueAt(cell, position) {
  const runs = D.cells[cell];
  const at = runs ? place(runs, position) : -1;
  return at < 0 ? "absent" : runs[at][1];
}

// The step that led to a position, and the line of the program that it came from.
const stepAt = (position) => D.steps[position - D.first] || "";
const lineAt = (position) => (D.lines.at ? D.lines.texts[D.lines.at[position - D.first]] || "" : "");

// The meaning of a cell's value in words; empty if the value needs no words.
const wordsOf = (cell, value) => (D.words[cell.split(" ")[0]] || {})[value] || "";

// A number of nanoseconds in a readable unit.
function time(nanoseconds) {
  const size = Math.abs(nanoseconds);
  for (const [unit, many] of [["s", 1e9], ["ms", 1e6], ["µs", 1e3]]) {
    if (size >= many) return `${(nanoseconds / many).toPrecision(4).replace(/\.?0+$/, "")} ${unit}`;
  }
  return `${nanoseconds} ns`;
}

const clockAt = (position) => D.ticks[Math.max(place(D.ticks, position), 0)][1];
const many = (count, what) => `${count.toLocaleString("en")} ${what}${count === 1 ? "" : "s"}`;

// An element with a text and a class. Text from a recording or a user becomes a text node, never HTML.
function element(name, text, kind) {
  const made = document.createElement(name);
  if (text !== undefined) made.textContent = text;
  if (kind) made.className = kind;
  return made;
}

// A button with its action and, if it has a title, a tooltip.
function pushed(text, does, title) {
  const button = element("button", text);
  button.type = "button";
  button.onclick = does;
  if (title) button.title = title;
  return button;
}
