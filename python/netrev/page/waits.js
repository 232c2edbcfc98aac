// The waits outside the poller. A goroutine that makes steps has its waits in its own row. The other goroutines have rows in a separate
// group.
const OTHERS = -2; // the group of goroutines that make no step
const WAITS = waitsByGoroutine();

// The waits by the goroutine's number, each with named fields. A goroutine that makes no step has the number -1 - i, where i is its index in
// `others`.
function waitsByGoroutine() {
  const { rows, texts } = D.waits, found = new Map();
  for (const [g, first, last, does, line, stack] of rows) {
    if (!found.has(g)) found.set(g, []);
    found.get(g).push({ g, first, last, does: texts[does], line: texts[line], stack: texts[stack] });
  }
  return found;
}

// The rows of goroutines that make no step.
function otherRows() {
  return D.waits.others.map(([goid, runs], at) => {
    const title = `goid ${goid}${runs ? ` ${runs}` : ""}`;
    return { name: `goid ${goid}`, kind: "wait", goid, title, waits: WAITS.get(-1 - at) || [], runs: [], shades: [] };
  });
}

// Whether one of these waits is under way between two positions.
const waitsIn = (waits, from, to) => waits.some(({ first, last }) => first <= to && (!last || last >= from));

// The wait of a row at a position.
const waitAt = (row, position) => row.waits?.find(({ first, last }) => first <= position && (!last || position < last));

// A wait in words.
const waitWords = ({ does, line }) => [does, line].filter(Boolean).join(" · ");

function drawWaits(row, y, wide) {
  X.font = `11px ${SANS}`;
  for (const wait of row.waits) {
    const x = Math.max(xOf(wait.first), labels()), right = Math.min(xOf(wait.last || END + 1), wide);
    if (right < labels() || x > wide) continue;
    X.strokeStyle = X.fillStyle = wait.last ? ink.soft : ink.due;
    X.strokeRect(x + 0.5, y + 2.5, Math.max(right - x - 1, 1), V.high - 5);
    if (!wait.last) hatch(x, right - x, y, ink.due, 9999);
    if (right - x > 40) X.fillText(fit(waitWords(wait), right - x - 10), x + 5, y + V.high / 2 + 0.5);
  }
}

// The text about goroutines for which the page has no room.
function leftOut() {
  const [goroutines, waits] = D.waits.left_out;
  const said = [goroutines ? many(goroutines, "goroutine") : "", waits ? many(waits, "wait") : ""].filter(Boolean).join(", ");
  return said ? ` · ${said} left out: info goroutines all` : "";
}
