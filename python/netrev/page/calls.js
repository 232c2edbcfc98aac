// Go's calls, and the stories of the page: a story is a suspect or a cause that nrdb found in the run. A call's colour shows its state:
// done, failed, hangs, hasn't ended, waits for connections.
const DONE = 0, FAILED = 1, HANGS = 2, OPEN = 3, LISTENS = 4;
const ENDS = ["", "failed", "hangs", "hasn't ended", "waits for connections"];
const CALLS = decoded();
const STORIES = [...D.suspects, ...D.causes];
const BY_ROW = byRow();

// The numbers of a column of calls. The column is one number for all calls, or the size of a number in bytes and all numbers in base64.
function numbersOf(told) {
  if (!Array.isArray(told)) return new Array(D.calls.count).fill(told);
  const [wide, packed] = told, letters = atob(packed), bytes = new Uint8Array(letters.length);
  for (let at = 0; at < letters.length; at++) bytes[at] = letters.charCodeAt(at);
  return { 1: () => bytes, 2: () => new Uint16Array(bytes.buffer), 4: () => new Uint32Array(bytes.buffer), 8: () => new Float64Array(bytes.buffer) }[wide]();
}

// The calls, each with its parts by name.
function decoded() {
  const { count, texts } = D.calls, calls = [];
  const names = ["g", "s", "first", "long", "name", "came", "line", "state", "stack", "waited", "slept"];
  const { g, s, first, long, name, came, line, state, stack, waited, slept } = Object.fromEntries(names.map((name) => [name, count ? numbersOf(D.calls[name]) : []]));
  let step = 0;
  for (let at = 0; at < count; at++) {
    step += first[at];
    calls.push({
      g: g[at], s: s[at], first: step, last: long[at] ? step + long[at] - 1 : 0, name: texts[name[at]], came: texts[came[at]],
      line: texts[line[at]], state: state[at], stack: texts[stack[at]], waited: waited[at], slept: slept[at],
    });
  }
  return calls;
}

// The calls of each goroutine on each socket. `reach` has, for each call, the last position at which it or an earlier call of its row ends.
function byRow() {
  const rows = new Map();
  for (const call of CALLS) {
    const key = `${call.s} ${call.g}`;
    if (!rows.has(key)) rows.set(key, { g: call.g, s: call.s, calls: [], reach: [] });
    const row = rows.get(key);
    row.calls.push(call);
    row.reach.push(Math.max(row.reach[row.reach.length - 1] ?? 0, untilOf(call)));
  }
  return rows;
}

// The position at which a call ends; END + 1 if it doesn't end.
function untilOf(call) {
  return call.last || END + 1;
}

// A goroutine with the function that it runs, if that is known.
function whoIs(g) {
  return D.names[g] ? `g${g} ${D.names[g]}` : `goroutine ${g}`;
}

// The index of a row's first call that may last until a position.
function firstCall(row, position) {
  let low = 0, high = row.calls.length;
  while (low < high) {
    const middle = (low + high) >> 1;
    if (row.reach[middle] < position) low = middle + 1;
    else high = middle;
  }
  return low;
}

// The calls of a row between two positions.
function* callsIn(row, from, to) {
  for (let at = firstCall(row, from); at < row.calls.length && row.calls[at].first - 1 <= to; at++) {
    if (untilOf(row.calls[at]) >= from) yield row.calls[at];
  }
}

// The innermost call of a row at a position.
function callAt(row, position) {
  let found;
  for (const call of callsIn(row, position, position)) if (position < untilOf(call)) found = call;
  return found;
}

const storyNow = () => STORIES[V.story];

// A call in words: its name, its result and its line.
function callWords(call) {
  const came = [ENDS[call.state] && call.state !== FAILED ? ENDS[call.state] : "", call.came].filter(Boolean).join(", ");
  const place = call.line.startsWith("in ") ? call.line : call.line.split(" ")[0];
  return [call.name, came, place].filter(Boolean).join(" · ");
}

function colourOf(call) {
  return { [FAILED]: ink.bad, [HANGS]: ink.bad, [OPEN]: ink.due, [LISTENS]: ink.soft }[call.state] || ink.accent;
}

// The calls of a goroutine on a socket. A call is red if it failed or hangs, and hatched to the end of the run if it doesn't end. Its lower
// part is darker where the goroutine sleeps.
function drawCalls(row, y, wide) {
  X.font = `11px ${SANS}`;
  let last = -1;
  for (const call of callsIn(row, V.from, V.from + V.span)) {
    const x = Math.max(xOf(call.first - 1), labels()), right = Math.min(xOf(untilOf(call)), wide);
    if (right < labels() || (right - last < 0.5 && call.state === DONE)) continue;
    last = right;
    drawCall(call, x, Math.max(right - x - 1, 1.2), y);
  }
}

function drawCall(call, x, long, y) {
  const colour = colourOf(call), tall = V.high - 5, isRed = call.state === FAILED && long > 2;
  X.fillStyle = colour;
  X.globalAlpha = isRed ? 1 : long < 3 ? 0.5 : 0.17;
  X.fillRect(x, y + 2.5, long, tall);
  X.globalAlpha = 1;
  X.fillRect(x, y + 2.5, Math.min(1.5, long), tall);
  if (call.waited && long > 8) drawSleep(call, x, long, y, isRed ? ink["on-bad"] : colour);
  const words = long > 30 ? fit(callWords(call), long - 8) : "";
  if (words !== callWords(call) && isOfStory(call)) return drawBefore(call, x, long, y);
  if (!call.last && call.state !== LISTENS) hatch(x, long, y, colour, words ? X.measureText(words).width + 12 : 0);
  X.fillStyle = isRed ? ink["on-bad"] : call.state === HANGS ? ink.bad : ink.ink;
  if (words) X.fillText(words, x + 5, y + V.high / 2 + 0.5);
}

// Whether the story may be about a call: the call hangs, or it isn't done and contains a step of the story.
function isOfStory(call) {
  return call.state === HANGS || (call.state !== DONE && (storyNow()?.steps ?? []).some((step) => call.first <= step && step <= untilOf(call)));
}

// The words of a call, drawn before its bar because the bar has no room for them.
function drawBefore(call, x, long, y) {
  const words = fit(callWords(call), x - labels() - 8), wide = X.measureText(words).width;
  if (!call.last) hatch(x, long, y, colourOf(call), 0);
  X.fillStyle = ink.ground;
  if (words) X.fillRect(x - wide - 6, y + 3, wide + 5, V.high - 6);
  X.fillStyle = colourOf(call);
  X.fillText(words, x - wide - 3, y + V.high / 2 + 0.5);
}

// A lower bar where the call's goroutine is parked or queued.
function drawSleep(call, x, long, y, colour) {
  const runs = D.cells[`gor ${call.g}`] || [], until = untilOf(call);
  X.fillStyle = colour;
  X.globalAlpha = 0.75;
  for (let at = Math.max(place(runs, call.first - 1), 0); at < runs.length && runs[at][0] < until; at++) {
    if (!/^(parked|queued)/.test(runs[at][1])) continue;
    const from = Math.max(xOf(Math.max(runs[at][0], call.first)), x), to = Math.min(xOf(Math.min(runs[at + 1]?.[0] ?? END + 1, until)), x + long);
    if (to > from) X.fillRect(from, y + V.high - 5.5, to - from, 3);
  }
  X.globalAlpha = 1;
}

function hatch(x, long, y, colour, free) {
  X.fillStyle = colour;
  X.globalAlpha = 0.55;
  for (let at = x + Math.max(free, 8); at < x + long; at += 7) X.fillRect(at, y + 4, 1.5, V.high - 8);
  X.globalAlpha = 1;
}

// The story's steps, with their numbers.
function drawStory(high) {
  const story = storyNow();
  if (!story) return;
  const shown = story.steps.map((step, at) => [step, at + 1]).filter(([step]) => step >= V.from - 1 && step <= V.from + V.span);
  let last = -99;
  for (const [step, number] of shown) {
    const x = xOf(step), low = x - last < 17 && V.head > 80 ? 17 : 0;
    X.globalAlpha = 0.45;
    X.fillStyle = ink.bad;
    X.fillRect(x - 0.5, V.head, 1, high - V.head);
    X.globalAlpha = 1;
    drawNumber(number, Math.max(x, last + (low ? 0 : 17)), V.head - 10 - low);
    last = low ? last : Math.max(x, last + 17);
  }
}

function drawNumber(number, x, y) {
  X.fillStyle = ink.bad;
  X.beginPath();
  X.arc(x, y, 8, 0, 7);
  X.fill();
  X.fillStyle = ink["on-bad"];
  X.font = `700 10.5px ${SANS}`;
  X.textAlign = "center";
  X.fillText(String(number), x, y + 0.5);
  X.textAlign = "left";
}
