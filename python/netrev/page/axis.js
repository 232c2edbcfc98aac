// The horizontal axis: by steps, which all have the same width, or by time. If the recorder logged the steps' times, the axis shows these.
// If only the clock's ticks are known, all positions between two ticks are drawn close together at the first tick.
const IS_TRUE = Boolean(D.times.ns);
let TIMES = timesNow();
const ALL_TIME = Math.max(TIMES[TIMES.length - 1][1] - TIMES[0][1], 1);
const HAIR = (ALL_TIME * (IS_TRUE ? 0.001 : 0.05)) / COUNT; // the least width of a step, so that no two steps coincide

// Positions with their times: inside the part with netrev's values, all known times; outside it, samples of the whole run.
function timesNow() {
  const own = IS_TRUE ? pairsOf(D.ownTimes) : (D.cells.clock || []).map(([position, value]) => [position, Number(value)]);
  const all = IS_TRUE ? pairsOf(D.times) : D.ticks;
  if (!own.length) return all;
  return [...all.filter(([position]) => position < D.first), ...own, ...all.filter(([position]) => position > D.last)];
}

function pairsOf({ first, last, every, ns = [] }) {
  let now = 0;
  return ns.map((later, at) => [Math.min(first + at * every, last), (now += later)]);
}

// The time of a position. With the recorder's times, it is interpolated between two known times; with ticks, it is the last tick's time.
function timeAt(position) {
  const at = Math.max(place(TIMES, position), 0), [step, now] = TIMES[at], next = TIMES[at + 1];
  if (!next || !IS_TRUE) return now;
  return now + ((next[1] - now) * (position - step)) / (next[0] - step);
}

// `along` is the place of a position on the axis. `positionOf` is the position at a place on the axis.
const along = (position) => (V.byTime ? timeAt(position) + position * HAIR : position);
function positionOf(far) {
  if (!V.byTime) return far;
  let low = BEGIN, high = END + 1;
  while (high - low > 1e-3) {
    const middle = (low + high) / 2;
    if (along(middle) <= far) low = middle;
    else high = middle;
  }
  return high >= END + 1 ? END + 1 : low;
}

// Measured once for each drawing: the sizes of the picture and its labels, and the part of the axis in view, which
// begins at `base` and is `reach` long.
const G = { wide: 0, tall: 0, left: 0, room: 1, base: 0, reach: 1, times: 1 };
function measure() {
  G.wide = C.clientWidth;
  G.tall = C.clientHeight;
  G.left = G.wide < NARROW ? 92 : 168;
  G.room = G.wide - G.left - EDGE;
  G.base = along(V.from);
  G.reach = Math.max(along(V.from + V.span) - G.base, 1e-9);
  G.times = G.room / G.reach;
}
const labels = () => G.left;
const room = () => G.room;
const inView = () => G.reach;
const perStep = () => (V.byTime ? 0 : G.room / V.span);
const xOf = (position) => G.left + (along(position) - G.base) * G.times;
const positionAt = (x) => positionOf(G.base + (x - G.left) / G.times);

// The share of the whole run that lies before a position.
const shareOf = (position) => (along(position) - along(BEGIN)) / (along(END + 1) - along(BEGIN));

// Shows the part of the axis between two places.
function showAlong(from, to) {
  const first = positionOf(Math.max(from, along(BEGIN)));
  show(first, positionOf(Math.min(to, along(END + 1))) - first);
}

// Moves the picture by this many pixels.
function moveBy(pixels) {
  const all = along(END + 1) - along(BEGIN), long = Math.min(inView(), all);
  const from = Math.min(Math.max(along(V.from) + (pixels / room()) * inView(), along(BEGIN)), along(END + 1) - long);
  showAlong(from, from + long);
}

function changeAxis() {
  V.byTime = !V.byTime;
  $("axis").textContent = V.byTime ? "time" : "steps";
  $("axis").setAttribute("aria-pressed", String(V.byTime));
  density = null;
  show(V.from, V.span);
}
