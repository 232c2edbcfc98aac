// The panel of the chosen position: the span, the story, the row and the cells; and the stories above.
const LISTED = 40;

function fillPanel() {
  const at = V.chosen, panel = $("panel"), go = pushed(`goto ${at}`, goThere, LIVE ? "leads the session there (c)" : "copies the line for nrdb's prompt (c)");
  go.className = "go";
  panel.replaceChildren(go, element("h1", `position ${at}`));
  if (V.picked) fillSpan();
  fillStory();
  panel.append(stepLine("last step", at > BEGIN ? stepAt(at) : "", at, at > BEGIN ? "(not here)" : "(start)"));
  panel.append(stepLine("next step", at < D.length ? stepAt(at + 1) : "", at + 1, at < D.length ? "(not here)" : "(end)"));
  for (const [step, who, , , kind] of D.wakes) if (step === at) panel.append(element("p", `${kind} wakes goroutine ${who}`));
  const marks = D.marks.filter((mark) => mark.hits.includes(at)).map((mark) => `mark ${mark.mark}: ${mark.what}`);
  if (marks.length) panel.append(element("p", marks.join("; ")));
  fillRow();
  if (isHere(at)) fillTables(at);
  else panel.append(element("p", `netrev's values of positions ${D.first} to ${D.last} are here.${LIVE ? "" : ` timeline FILE ${Math.max(at - 4000, 0)} ${Math.min(at + 4000, END)} writes those round this one.`}`));
}

// How it went wrong: the steps of the story, each with the program's line, and what to look at.
function fillStory() {
  const story = storyNow();
  if (!story) return;
  const list = element("ol", undefined, "story");
  story.steps.forEach((step, at) => list.append(storyStep(story, step, story.texts[at])));
  $("panel").append(element("h2", story.rule), list);
  const looks = element("p", "look ");
  for (const line of story.looks) looks.append(pushed(line, () => lookAt(line), LIVE ? "asks the session" : "copies the line for nrdb's prompt"), " ");
  looks.className = "looks";
  $("panel").append(looks);
}

function storyStep(story, step, text) {
  const item = element("li"), line = story.lines.find((one) => one.startsWith(`step ${step},`)) || "";
  const [, where = ""] = /^step \d+, \S+: (.*)$/.exec(line) || [];
  item.append(pushed(`${step}: ${text}`, () => choose(step, true)));
  if (step === V.chosen) item.className = "chosen";
  if (where || lineAt(step)) item.append(element("small", where || lineAt(step)));
  return item;
}

// The row that was clicked, and what can be done with it.
function fillRow() {
  const row = rowNow();
  if (!row && ONLY.s === null && ONLY.g === null) return;
  const buttons = element("p", undefined, "buttons");
  if (row) {
    const socket = socketOf(row);
    buttons.append(pushed(PINNED.has(keyOf(row)) ? "unpin" : "pin", KEY.p, "keeps it at the top (p)"));
    if (socket !== null) buttons.append(pushed(FOLDED.has(socket) ? "unfold" : "fold", KEY.f, "folds its connection (f)"), pushed("this connection", KEY.o, "leaves its rows alone (o)"));
    if (row.g !== undefined) buttons.append(pushed("this goroutine", KEY.g, "leaves its rows alone (g)"));
  }
  if (ONLY.s !== null || ONLY.g !== null) buttons.append(pushed("all rows", () => only(null, null), "ends the filter (Esc)"));
  $("panel").append(element("h2", row ? row.title : "filtered"), buttons);
  const wait = row && waitAt(row, V.chosen);
  if (wait) $("panel").append(waitLine(wait));
}

// A wait with the program's calls on its stack, each on its own line.
function waitLine(wait) {
  const line = element("p", `${wait.does}, since ${wait.first}`);
  line.append(...wait.stack.split(", ").filter(Boolean).map((call) => element("small", call)));
  return line;
}

// The cells at a position: those that its step changed, and those that differ from their idle values.
function fillTables(at) {
  const cells = Object.keys(D.cells), values = new Map(cells.map((cell) => [cell, valueAt(cell, at)]));
  const changed = at > D.first ? cells.filter((cell) => changedAt(cell, at)) : [];
  const those = (begins, quiet) => cells.filter((cell) => begins.test(cell) && !quiet.includes(values.get(cell)));
  fillTable("changed by the last step", changed, values, (cell) => valueAt(cell, at - 1));
  fillTable("goroutines that do something", those(/^gor /, ["idle", "gone", "absent"]), values);
  fillTable("sockets in use", those(/^lock /, ["0", "1", "absent"]), values);
  fillTable("bytes", those(/^(in|out) /, ["0", "absent"]), values);
  fillTable("deadlines", those(/^[rw]d /, ["0", "absent"]), values);
  fillTable("machine", those(/^\w+$/, []), values);
}

// Whether a run of a cell begins at a position.
function changedAt(cell, position) {
  const runs = D.cells[cell], at = place(runs, position);
  return at > 0 && runs[at][0] === position;
}

function stepLine(label, text, position, none) {
  const line = element("p", `${label} `);
  line.append(element("code", text ? `${position}: ${text}` : none));
  if (text && lineAt(position)) line.append(element("small", lineAt(position)));
  return line;
}

// A table of cells with their values. If `before` is given, it returns a cell's previous value, and the table shows that too.
function fillTable(title, cells, values, before) {
  if (!cells.length) return;
  const table = element("table");
  for (const cell of cells.slice(0, LISTED)) {
    const row = element("tr"), shown = element("td"), value = values.get(cell);
    if (before) shown.append(element("span", `${before(cell)} → `, "old"));
    shown.append(document.createTextNode(value));
    const words = wordsOf(cell, value) || timeWords(cell, value);
    if (words) shown.append(element("small", words));
    row.append(element("td", cell), shown);
    table.append(row);
  }
  const more = cells.length > LISTED ? ` (${LISTED} of ${cells.length})` : "";
  $("panel").append(element("h2", title + more), table);
}

// The time in the cell `clock` or `least`, in a readable unit.
function timeWords(cell, value) {
  if (cell !== "clock" && cell !== "least") return "";
  return value === "absent" ? "no timer" : time(Number(value));
}

// Moves a shared session to the chosen position. If the page is a file, copies the `goto` command.
const goThere = () => lookAt(`goto ${V.chosen}`);

// Sends a line to a shared session. If the page is a file, copies the line.
function lookAt(line) {
  if (LIVE) LIVE.ask(line);
  else copy(line);
}

function copy(text) {
  const done = () => { $("said").textContent = `copied: ${text}`; };
  if (navigator.clipboard && isSecureContext) navigator.clipboard.writeText(text).then(done, () => copyOld(text, done));
  else copyOld(text, done);
}

function copyOld(text, done) {
  const field = element("textarea", text);
  document.body.append(field);
  field.select();
  if (document.execCommand("copy")) done();
  field.remove();
}

// The stories above, each a button that shows it.
function fillStories() {
  for (const [at, story] of STORIES.entries()) {
    const button = pushed("", () => showStory(at), [...story.netrev.map((one) => `netrev: ${one}`), ...story.lines].join("\n"));
    button.append(element("b", story.rule), document.createTextNode(story.says));
    $("suspects").append(button);
  }
}
