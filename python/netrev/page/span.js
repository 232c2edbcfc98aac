// The picked span of steps: how long it is, which calls lie in it, and how long goroutines slept in it.
function pick(one, other) {
  V.picked = { from: Math.min(within(one), within(other)), to: Math.max(within(one), within(other)) };
  fillPanel();
  draw();
}

function unpick() {
  V.picked = null;
  V.edge = undefined;
}

// The first press makes the chosen position one end of the span. The second press takes the position chosen by then as the other end.
function pickEdge() {
  if (V.edge === undefined) {
    V.edge = V.chosen;
    $("said").textContent = `a span from ${V.edge}: choose its other end, and press m`;
    return;
  }
  const begun = V.edge;
  V.edge = undefined;
  pick(begun, V.chosen);
}

// The summary of a span, as pairs of a name and a text.
function sumsOf({ from, to }) {
  const calls = CALLS.filter((call) => call.first <= to && untilOf(call) > from && isShown(call));
  const sums = [["steps", `${from} to ${to}, ${many(to - from, "step")}`], ["time", time(timeAt(to) - timeAt(from))]];
  sums.push(["calls", [...tally(calls.map((call) => call.name))].map(([name, count]) => `${count} ${name}`).join(", ") || "none"]);
  for (const state of [FAILED, HANGS, OPEN]) {
    const count = calls.filter((call) => call.state === state).length;
    if (count) sums.push([ENDS[state], many(count, "call")]);
  }
  const slept = sleptIn(from, to);
  if (slept) sums.push(["asleep", slept]);
  return sums;
}

// Whether the filter shows a call.
const isShown = (call) => (ONLY.s === null || ONLY.s === call.s) && (ONLY.g === null || ONLY.g === call.g);

function tally(names) {
  const counts = new Map();
  for (const name of names) counts.set(name, (counts.get(name) || 0) + 1);
  return counts;
}

// How long goroutines slept between two positions; empty if the page lacks netrev's values at one of them.
function sleptIn(from, to) {
  if (!isHere(from) || !isHere(to)) return "";
  let who = 0, steps = 0, long = 0;
  for (const cell of Object.keys(D.cells).filter((one) => one.startsWith("gor ") && (ONLY.g === null || one === `gor ${ONLY.g}`))) {
    let here = 0;
    const runs = D.cells[cell];
    for (let at = Math.max(place(runs, from), 0); at < runs.length && runs[at][0] < to; at++) {
      if (!/^(parked|queued)/.test(runs[at][1])) continue;
      const begins = Math.max(runs[at][0], from), ends = Math.min(runs[at + 1]?.[0] ?? END, to);
      here += ends - begins;
      long += timeAt(ends) - timeAt(begins);
    }
    if (here) who++;
    steps += here;
  }
  return steps ? `${many(who, "goroutine")}, ${many(steps, "step")}, ${time(long)} in all` : "";
}

function fillSpan() {
  const table = element("table");
  for (const [name, says] of sumsOf(V.picked)) {
    const row = element("tr");
    row.append(element("td", name), element("td", says));
    table.append(row);
  }
  $("panel").append(element("h2", "the span"), table);
}
