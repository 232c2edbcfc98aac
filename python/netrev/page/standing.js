// The position of a shared session, which any user may move; its marks; and the part of the run whose values it has sent.
const SEEN = 6000; // if more steps are in view, their values aren't asked for
function drawStand(high) {
  if (xOf(D.position) < labels()) return;
  X.fillStyle = ink.hit;
  X.fillRect(xOf(D.position), V.head, 2, high);
}

function drawStandAbove(x) {
  X.fillStyle = ink.hit;
  X.fillRect(x - 1, 2, 3, 34);
}

// Shows the session's new position. With `follows`, also chooses that position.
function stand(position, follows) {
  D.position = position;
  if (follows) choose(position, true);
  else draw();
}

// Takes netrev's values of another part of the run.
function setPart(part) {
  Object.assign(D, part);
  GROUPS = grouped();
  TIMES = timesNow();
  density = null;
  fillPanel();
  show(V.from, V.span);
}

// Asks a shared session for netrev's values in the view, if at most SEEN steps are in view and the page lacks values of them.
function askForView() {
  const from = Math.max(Math.floor(V.from), BEGIN), to = Math.min(Math.ceil(V.from + V.span), END);
  if (LIVE && to - from <= SEEN && (from < D.first || to > D.last)) LIVE.seen(from, to, END);
}

// The positions of a mark in the part: after each change of a cell, before a step, or before each step of a kind.
function hitsOf(what) {
  const [sort, ...rest] = what.split(" "), marked = rest.join(" ");
  if (sort === "watch") return (D.cells[marked] || []).slice(1).map(([position]) => position);
  if (marked.startsWith("@")) return [Number(marked.slice(1)) - 1].filter((position) => position >= D.first && position <= D.last);
  return D.steps.flatMap((step, at) => (at && step.split(" ")[0] === marked ? [D.first + at - 1] : []));
}

function setMarks(marks) {
  D.marks = marks.map((mark) => ({ ...mark, hits: hitsOf(mark.what) }));
  fillPanel();
  draw();
}
