// The search finds steps by their text, and calls and waits by their line or a function on their stack. If the text
// names a goroutine or a connection, the search finds the steps, calls and waits that belong to it.
const MADE_BY_NONE = /^(?:sockopen|arrive|peerclose|drain|pollevent|tick|pop|fire|spawn)\b/;
const FOUND = new Map(); // the row of each call or wait that was found, by the position at which it begins

// Marks the steps, calls and waits that have this text, or that belong to the goroutine or the connection that the text names.
function find(text) {
  const wanted = text.trim(), steps = wanted ? stepsFound(wanted) : [];
  FOUND.clear();
  const calls = wanted ? callsFound(wanted) : [], waits = wanted ? waitsFound(wanted) : [];
  for (const wait of waits) FOUND.set(wait.first, wait.row);
  for (const call of calls) FOUND.set(call.first, `call ${call.s} ${call.g}`);
  V.hits = [...new Set([...steps, ...FOUND.keys()])].sort((one, other) => one - other);
  const where = D.last - D.first + 1 < COUNT ? ` from ${D.first} to ${D.last}` : "";
  const found = [...(calls.length ? [many(calls.length, "call")] : []), ...(waits.length ? [many(waits.length, "wait")] : [])];
  if (steps.length || !found.length) found.push(many(steps.length, "step") + where);
  $("said").textContent = wanted ? `${found.join(", ")} · n, N` : "";
  draw();
}

// The part's steps that have this text, or that the named goroutine made.
function stepsFound(wanted) {
  const of = /^(?:gor|goroutine) (\d+)$/.exec(wanted), found = [];
  const isHit = of ? (step) => !MADE_BY_NONE.test(step) && step.split(" ")[1] === of[1] : (step) => step.includes(wanted);
  for (let p = Math.max(D.first, 1); p <= D.last; p++) if (isHit(stepAt(p))) found.push(p);
  return found;
}

// Returns a function that reports whether any of its texts contains the wanted text. A number matches only whole numbers: `a.go:3` isn't in `a.go:37`.
function finder(wanted) {
  const spelled = wanted.replace(/[.*+?^${}()|[\]\\]/g, "\\$&");
  const pattern = new RegExp(`${/^\d/.test(wanted) ? "(?<!\\d)" : ""}${spelled}${/\d$/.test(wanted) ? "(?!\\d)" : ""}`);
  return (...texts) => texts.some((text) => pattern.test(text));
}

// The calls on a connection, by a goroutine, or with this text in their name, their line or their stack.
function callsFound(wanted) {
  const [, what, number] = /^(sock|socket|connection|gor|goroutine) (\d+)$/.exec(wanted) || [], has = finder(wanted);
  if (!what) return CALLS.filter((call) => has(call.name, call.line, call.stack));
  return CALLS.filter((call) => (/^s|^c/.test(what) ? call.s : call.g) === Number(number));
}

// The waits of a goroutine, or the waits with this text in their reason, line or stack. Each has the name of its row.
function waitsFound(wanted) {
  const [, what, number] = /^(goid|gor|goroutine) (\d+)$/.exec(wanted) || [], has = finder(wanted), found = [];
  for (const [g, waits] of WAITS) {
    const row = g < 0 ? `goid ${D.waits.others[-1 - g][0]}` : `gor ${g}`, isIts = what && row === `${what === "goid" ? "goid" : "gor"} ${number}`;
    for (const wait of waits) if (isIts || (!what && has(wait.does, wait.line, wait.stack))) found.push({ ...wait, row });
  }
  return found;
}

// Goes to the next match, or to the previous one if `way` is -1. If a call or a wait was found there, chooses its row.
function match(way) {
  if (!V.hits.length) return;
  const ahead = () => V.hits.find((p) => p > V.chosen) ?? V.hits[0];
  const before = () => V.hits.filter((p) => p < V.chosen).pop() ?? V.hits[V.hits.length - 1];
  const position = way > 0 ? ahead() : before();
  if (FOUND.has(position)) V.row = FOUND.get(position);
  choose(position, true);
  if (FOUND.has(position)) seeRow(V.row);
}

// Brings a row into view. If the row's connection is folded, unfolds it.
function seeRow(name) {
  const group = GROUPS.find(([, rows]) => rows.some((row) => row.name === name));
  if (group && FOLDED.delete(group[0])) show(V.from, V.span);
  const at = V.rows.findIndex((row) => row.name === name), y = at * V.high, tall = C.clientHeight - V.head;
  if (at >= 0 && (y < V.top || y + V.high > V.top + tall)) scroll(y - tall / 2);
  draw();
}
