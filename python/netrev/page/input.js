// Wheel, pointers, keys and buttons; and how the page begins.
const CLICK = 4; // the most pixels that a pointer moves during a click
const pointers = new Map();
let drag = null;

C.addEventListener("wheel", (event) => {
  event.preventDefault();
  $("tip").style.display = "none";
  const sideways = Math.abs(event.deltaX) > Math.abs(event.deltaY);
  if (sideways) return moveBy(event.deltaX);
  if (event.shiftKey || event.offsetX < labels()) {
    scroll(V.top + event.deltaY);
    return draw();
  }
  const inOverview = event.offsetY < 36;
  zoom(Math.exp(Math.min(Math.max(event.deltaY, -300), 300) * 0.002), inOverview ? undefined : positionAt(event.offsetX));
}, { passive: false });

C.addEventListener("pointerdown", (event) => {
  C.focus();
  C.setPointerCapture?.(event.pointerId);
  pointers.set(event.pointerId, event);
  const inOverview = event.offsetY < 36 && event.offsetX > labels();
  const picks = event.shiftKey && event.offsetX > labels() ? Math.floor(positionAt(event.offsetX)) : undefined;
  drag = { x: event.offsetX, y: event.offsetY, last: event.offsetX, top: V.top, moved: 0, inOverview, apart: apart(), picks };
  if (inOverview) overviewTo(event);
});

C.addEventListener("pointermove", (event) => {
  if (pointers.has(event.pointerId)) pointers.set(event.pointerId, event);
  if (!drag) return hover(event);
  $("tip").style.display = "none";
  if (pointers.size === 2) return pinch();
  if (drag.inOverview) return overviewTo(event);
  const x = event.offsetX - drag.x, y = event.offsetY - drag.y;
  drag.moved = Math.max(drag.moved, Math.abs(x) + Math.abs(y));
  if (drag.moved <= CLICK) return;
  if (drag.picks !== undefined) return pick(drag.picks, Math.floor(positionAt(event.offsetX)));
  V.top = drag.top - y;
  moveBy(drag.last - event.offsetX);
  drag.last = event.offsetX;
});

for (const name of ["pointerup", "pointercancel"]) {
  C.addEventListener(name, (event) => {
    pointers.delete(event.pointerId);
    const was = drag;
    if (!pointers.size) drag = null;
    if (name === "pointerup" && was && was.moved <= CLICK && !was.inOverview && !pointers.size) click(event);
  });
}
C.addEventListener("pointerleave", () => { $("tip").style.display = "none"; });

// How far apart two fingers are.
function apart() {
  const [one, other] = [...pointers.values()];
  return other ? Math.max(Math.abs(one.offsetX - other.offsetX), 20) : 0;
}

function pinch() {
  const [one, other] = [...pointers.values()], far = apart();
  drag.moved = Infinity; // two fingers are no click
  zoom(drag.apart / far, positionAt((one.offsetX + other.offsetX) / 2));
  drag.apart = far;
}

function overviewTo(event) {
  const far = along(BEGIN) + ((event.offsetX - labels()) / room()) * (along(END + 1) - along(BEGIN)), half = inView() / 2;
  showAlong(far - half, far + half);
}

// Chooses the row and the position under the pointer. If a call is there, picks its span. If a head is there, folds or unfolds its connection.
function click(event) {
  const row = rowAt(event.offsetY);
  if (row?.head && row.socket !== undefined) return fold(row.socket);
  V.row = row?.name ? keyOf(row) : V.row;
  if (event.offsetX <= labels()) {
    fillPanel();
    return draw();
  }
  const position = Math.floor(positionAt(event.offsetX)), call = row?.kind === "call" && callAt(row, position);
  V.picked = call ? { from: call.first - 1, to: call.last || END } : null;
  choose(position);
}

// Chooses the next row that has a name, or the one before, and brings it into view.
function chooseRow(way) {
  const rows = V.rows.filter((row) => row.name && row.kind !== "clock"), at = rows.findIndex((row) => keyOf(row) === V.row);
  const row = rows[at < 0 ? 0 : Math.min(Math.max(at + way, 0), rows.length - 1)];
  if (!row) return;
  V.row = keyOf(row);
  const y = V.rows.indexOf(row) * V.high, tall = C.clientHeight - V.head;
  if (y < V.top || y + V.high > V.top + tall) scroll(y - tall / 2);
  fillPanel();
  draw();
}

// Does something with the row that is chosen.
function withRow(does) {
  const row = rowNow();
  if (!row) return void ($("said").textContent = "choose a row first: click it, or press j");
  does(row);
  fillPanel();
}

const KEY = {
  ArrowLeft: () => choose(V.chosen - 1, true),
  ArrowRight: () => choose(V.chosen + 1, true),
  ArrowUp: () => { scroll(V.top - 3 * V.high); draw(); },
  ArrowDown: () => { scroll(V.top + 3 * V.high); draw(); },
  PageUp: () => { scroll(V.top - C.clientHeight / 2); draw(); },
  PageDown: () => { scroll(V.top + C.clientHeight / 2); draw(); },
  Home: () => choose(BEGIN, true),
  End: () => choose(END, true),
  ",": () => alongStory(-1), ".": () => alongStory(1),
  j: () => chooseRow(1), k: () => chooseRow(-1),
  f: () => withRow((row) => { const socket = socketOf(row); if (socket !== null) fold(socket); }),
  p: () => withRow(pin),
  o: () => withRow((row) => only(socketOf(row), null)),
  g: () => withRow((row) => { if (row.g !== undefined) only(null, row.g); }),
  m: pickEdge,
  t: changeAxis,
  S: saveSvg, P: savePng,
  "+": () => zoom(0.6), "=": () => zoom(0.6), w: () => zoom(0.6),
  "-": () => zoom(1.7), s: () => zoom(1.7),
  a: () => moveBy(-room() * 0.2),
  d: () => moveBy(room() * 0.2),
  0: () => show(BEGIN, COUNT),
  n: () => match(1), N: () => match(-1),
  "]": () => change(1), "[": () => change(-1),
  c: goThere,
  "/": () => $("find").focus(),
  "?": () => { $("help").hidden = !$("help").hidden; },
  Escape: forget,
};

function forget() {
  $("help").hidden = true;
  unpick();
  Object.assign(ONLY, { s: null, g: null });
  $("find").value = "";
  find("");
  fillPanel();
  show(V.from, V.span);
}

addEventListener("keydown", (event) => {
  if (/^(text|search)$/.test(event.target.type) || event.ctrlKey || event.metaKey || event.altKey) return;
  const does = KEY[event.key];
  if (!does) return;
  event.preventDefault();
  does();
});

$("find").addEventListener("input", () => find($("find").value));
$("find").addEventListener("keydown", (event) => {
  if (event.key === "Enter") {
    event.preventDefault();
    match(event.shiftKey ? -1 : 1);
  }
  if (event.key === "Escape") {
    forget();
    C.focus();
  }
});
$("search").addEventListener("submit", (event) => event.preventDefault());
$("back").onclick = () => match(-1);
$("forth").onclick = () => match(1);
$("fit").onclick = KEY[0];
$("in").onclick = KEY["+"];
$("out").onclick = KEY["-"];
$("about").onclick = KEY["?"];
$("axis").onclick = changeAxis;
$("svg").onclick = saveSvg;
$("png").onclick = savePng;
$("help").onclick = () => { $("help").hidden = true; };
$("ended").onchange = () => show(V.from, V.span);
addEventListener("resize", () => show(V.from, V.span));
addEventListener("hashchange", () => { if (chosenByAddress()) choose(V.chosen, true); });
DARK.addEventListener("change", () => { readColours(); fillHelp(); draw(); });

// Takes the position that the address names, if it names one.
function chosenByAddress() {
  const named = /^#(\d+)$/.exec(location.hash);
  if (named) V.chosen = within(Number(named[1]));
  return named !== null;
}

if (LIVE) D.position = LIVE.position();
V.chosen = within(D.position);
$("name").textContent = D.name ? `netrev · ${D.name}` : "netrev";
document.title = D.name ? `${D.name} · netrev` : "netrev timeline";
readColours();
fillStories();
fillHelp();
begin();
