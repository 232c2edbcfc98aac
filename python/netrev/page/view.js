// V is the view: its first position, its number of positions, its rows, the chosen position, story, row and span, and the matches.
const LOW = 74, TALL = 116; // pixels above the rows, without and with steps
const V = {
  from: BEGIN, span: COUNT, top: 0, rows: [], high: 18, head: LOW, chosen: within(D.position), row: "", hits: [], story: 0, byTime: false,
  picked: null,
};
const EDGE = 26, NARROW = 700; // pixels that are left free at the right; the width of a narrow screen
const WIDE = 64, SLANTED = 16; // if a step has at least this many pixels, its text is shown in full, or its kind is shown slanted
const WHOLE = 400; // a run with at most this many steps is at first shown whole
const C = $("picture");

function within(position) {
  return Math.min(Math.max(position, BEGIN), END);
}

// Shows `span` positions, beginning with `from`.
function show(from, span) {
  V.span = Math.min(Math.max(span, Math.min(4, COUNT)), COUNT);
  V.from = Math.min(Math.max(from, BEGIN), END + 1 - V.span);
  measure();
  V.rows = rowsBetween(V.from, V.from + V.span, $("ended").checked);
  V.head = perStep() < SLANTED ? LOW : TALL;
  const high = G.tall - V.head;
  V.high = Math.min(Math.max(Math.floor(high / (V.rows.length + 1)), 18), 24);
  scroll(V.top);
  tellView();
  askForView();
  draw();
}

function tellView() {
  const rows = V.rows.filter((row) => !row.head).length, last = Math.floor(V.from + V.span - 0.001);
  tell(`${many(rows, "row")} · positions ${Math.ceil(V.from)} to ${last} of ${D.length.toLocaleString("en")}`);
}

const tell = (text) => { if (!V.hits.length) $("said").textContent = text; };

function scroll(top) {
  const most = V.rows.length * V.high - (G.tall - V.head) + 10;
  V.top = Math.min(Math.max(top, 0), Math.max(most, 0));
}

// Zooms by a factor around a position.
function zoom(factor, round) {
  const at = along(round ?? (V.chosen >= V.from && V.chosen <= V.from + V.span ? V.chosen + 0.5 : V.from + V.span / 2));
  const from = along(V.from), to = along(V.from + V.span);
  showAlong(at - (at - from) * factor, at + (to - at) * factor);
}

// Chooses a position; with `see` it comes into view.
function choose(position, see) {
  V.chosen = within(position);
  history.replaceState(null, "", `#${V.chosen}`);
  fillPanel();
  if (see && (V.chosen < V.from || V.chosen + 1 > V.from + V.span)) show(V.chosen + 0.5 - V.span / 2, V.span);
  else draw();
}

// Chooses a story, zooms to its steps, and scrolls its connection to the top.
function showStory(at) {
  V.story = at;
  const story = STORIES[at], first = story.steps[0], last = story.steps[story.steps.length - 1];
  const span = Math.min(COUNT, Math.max((last - first) * 1.3, 44));
  FOLDED.delete(groupOf(story));
  show((first + last) / 2 - span / 2, span);
  takeStory(at);
  const head = V.rows.findIndex((row) => row.head && row.socket === groupOf(story));
  if (head >= 0) scroll(head * V.high);
  choose(story.step, true);
}

// Chooses a story, and marks its button.
function takeStory(at) {
  V.story = at;
  [...$("suspects").children].forEach((button, place) => {
    button.classList.toggle("chosen", place === at);
    button.setAttribute("aria-pressed", String(place === at));
  });
}

// The first view. It shows the first story, unless the session or the address names another position. A short run is shown whole, and so
// is a part that the user asked for. Without a story, a page of a part begins in that part, at a position whose values the page has.
function begin() {
  const isElsewhere = chosenByAddress() || D.position > BEGIN || LIVE, hasAll = D.first <= BEGIN && D.last >= END;
  if (STORIES.length) takeStory(0);
  const beginsInPart = D.isPart || (!STORIES.length && !hasAll && !LIVE);
  if (beginsInPart && !isElsewhere) V.chosen = D.isPart ? D.first : D.last;
  if (beginsInPart) show(D.first, D.last - D.first + 1);
  else show(BEGIN, COUNT);
  if (!STORIES.length || isElsewhere) return fillPanel();
  if (COUNT > WHOLE && !D.isPart) showStory(0);
  else if (!D.isPart || isHere(STORIES[0].step)) choose(STORIES[0].step);
  else fillPanel();
}

// Goes to the next step of the story, or to the previous one.
function alongStory(way) {
  const steps = storyNow()?.steps ?? [];
  const next = way > 0 ? steps.find((step) => step > V.chosen) : steps.filter((step) => step < V.chosen).pop();
  if (next !== undefined) choose(next, true);
}

// Goes to the next change in the chosen row, or to the previous one. In a descriptor's row, only changes during its uses count. In a row
// of calls or waits, the changes are the steps at which a call or wait begins or ends.
function change(way) {
  const row = rowNow() || V.rows.find((one) => one.kind === "gor");
  if (!row) return;
  const isIn = ([from]) => row.begins === undefined || (row.begins <= from && from <= row.ends);
  const changes = row.kind === "call" ? edgesOf(row) : row.kind === "wait" ? waitEdges(row) : row.runs.filter(isIn), at = place(changes, V.chosen);
  const next = changes[way > 0 ? at + 1 : at >= 0 && changes[at][0] === V.chosen ? at - 1 : at];
  if (next) choose(next[0], true);
}

const waitEdges = (row) => row.waits.flatMap(({ first, last }) => (last ? [[first], [last]] : [[first]]));
const edgesOf = (row) => row.calls.flatMap((call) => (call.last ? [[call.first], [call.last]] : [[call.first]])).sort((one, other) => one[0] - other[0]);
