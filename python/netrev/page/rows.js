// The rows, in groups. A connection's group has its socket, the calls on it, the sides of the descriptors that it uses, and the goroutines
// that have most to do with it. The last group has the goroutines that make no step. Rows are left out if nothing happens
// in them in the view, or if a filter or a fold hides them.
const RANK = { call: 0, sock: 1, desc: 2, due: 3, gor: 4, wait: 5 };
const STILL = { gor: ["gone", ""], sock: ["closed", ""], desc: ["nil", ""] };
const FOLDED = new Set(), PINNED = new Set();
const MANY = 40; // if there are more groups, all begin folded except those of a story
const ONLY = { s: null, g: null }; // the connection and the goroutine to which a filter limits the rows
let GROUPS = grouped();
if (GROUPS.length > MANY) for (const [socket] of GROUPS) if (!ofStories().has(socket)) FOLDED.add(socket);

// The groups that the stories are about: sockets, and the goroutines that make no step.
function ofStories() {
  return new Set(STORIES.map(groupOf).filter((group) => group !== null));
}

// The group that a story is about; null if it names none.
function groupOf(story) {
  return story.s ?? (story.goid === undefined ? null : OTHERS);
}

// The groups with their rows. A row has a name, a kind, a title, and runs, each with its shade. For a side of a descriptor, it also has the
// positions at which its uses begin and end.
function grouped() {
  const groups = new Map();
  const add = (socket, row) => {
    if (!groups.has(socket)) groups.set(socket, []);
    groups.get(socket).push(row);
  };
  for (const [name, { g, s, calls, reach }] of BY_ROW) {
    add(s, { name: `call ${name}`, kind: "call", cell: `gor ${g}`, g, calls, reach, runs: [], shades: [], title: whoIs(g) });
  }
  const named = Object.fromEntries(D.rows.map((row) => [row.name, row]));
  for (const row of D.rows) addRow(add, row);
  for (const { d, socket, uses } of usesBySocket()) {
    for (const side of "rw") addSide(add, named[`desc ${d} ${side}`], socket, d, side, uses);
  }
  for (const row of otherRows()) add(OTHERS, row);
  for (const rows of groups.values()) rows.sort((one, other) => RANK[one.kind] - RANK[other.kind]);
  const first = ofStories();
  return [...groups].sort((one, other) => first.has(other[0]) - first.has(one[0]) || order(one[0]) - order(other[0]));
}

function addRow(add, row) {
  const [kind, number] = row.name.split(" ");
  const runs = D.cells[row.cell];
  if (kind === "sock") add(Number(number), { ...row, kind, runs, title: `socket ${number}` });
  if (kind !== "gor") return;
  const g = Number(number), waits = WAITS.get(g) || [];
  add(D.groups[number] ?? -1, { ...row, kind, runs, g, waits, title: `goroutine ${number}` });
}

// The uses of descriptors in the part, grouped by descriptor and socket. Each use is a pair: the positions at which it begins and ends.
function usesBySocket() {
  const found = new Map();
  for (const [d, socket, begins, ends] of D.uses) {
    const until = ends ?? END + 1, key = `${socket} ${d}`;
    if (begins > D.last || until <= D.first) continue;
    if (!found.has(key)) found.set(key, { d, socket, uses: [] });
    found.get(key).uses.push([begins, until]);
  }
  return found.values();
}

// Adds the rows for one side of a descriptor that a socket uses: its wait word, and its deadline if it ever has one.
function addSide(add, row, socket, d, side, uses) {
  if (!row) return;
  const due = ([, value]) => (value === "0" || value === "absent" ? "" : value < 0 ? "passed" : "due");
  const word = inUses(D.cells[row.cell], row.shades, uses), cell = `${side}d ${d}`, values = D.cells[cell];
  const deadline = inUses(values, values.map(due), uses), span = { begins: uses[0][0], ends: uses[uses.length - 1][1], of: d, side };
  add(socket, { ...span, ...word, name: row.name, cell: row.cell, kind: "desc", title: `desc ${d} ${SIDES[side]}` });
  if (deadline.shades.some(Boolean)) add(socket, { ...span, ...deadline, name: `due ${d} ${side}`, cell, kind: "due", title: `${SIDES[side]} deadline` });
}

// The runs of a cell during these uses, with their shades. Between two uses, the value is absent.
function inUses(runs, shades, uses) {
  const kept = { runs: [], shades: [] };
  const put = (position, value, shade) => {
    kept.runs.push([position, value]);
    kept.shades.push(shade);
  };
  uses.forEach(([begins, ends], number) => {
    for (let at = Math.max(place(runs, begins), 0); at < runs.length && runs[at][0] < ends; at++) {
      put(Math.max(runs[at][0], begins), runs[at][1], shades[at]);
    }
    if (ends <= D.last && uses[number + 1]?.[0] !== ends) put(ends, "absent", "");
  });
  return kept;
}

// A key that only this row has. Another socket may use the descriptor later; then that socket's row has the same name.
const keyOf = (row) => (row.begins === undefined ? row.name : `${row.name} ${row.begins}`);
const rowNow = () => V.rows.find((row) => row.name && keyOf(row) === V.row);

function order(socket) {
  return socket < 0 ? 1e9 - socket : socket;
}

// Whether something happens in a row between two positions.
function lives(row, from, to) {
  if (row.kind === "call") return !callsIn(row, from, to).next().done;
  if (row.waits && waitsIn(row.waits, from, to)) return true;
  if (from > D.last || to < D.first) return false;
  if (row.begins !== undefined && (row.begins > to || row.ends <= from)) return false;
  const still = STILL[row.kind] || [""];
  for (let at = Math.max(place(row.runs, from), 0); at < row.runs.length && row.runs[at][0] <= to; at++) {
    if (row.begins !== undefined && at + 1 < row.runs.length && row.runs[at + 1][0] <= row.begins) continue;
    if (!still.includes(row.shades[at])) return true;
  }
  return false;
}

// Whether the filter shows a row of a connection. It shows the rows of the chosen connection, or of the chosen goroutine. Pinned rows are
// always shown.
function isLeft(socket, row) {
  if (PINNED.has(keyOf(row))) return true;
  return (ONLY.s === null || ONLY.s === socket) && (ONLY.g === null || row.g === ONLY.g);
}

// The rows to show between two positions: first the pinned rows, then each group under its head. With `all`, rows in which nothing
// happens are shown too.
function rowsBetween(from, to, all) {
  const clock = { title: "clock", kind: "clock", name: "clock", cell: "clock", runs: D.ticks, shades: [] };
  const shown = D.ticks.length > 1 ? [clock] : [];
  const pinned = GROUPS.flatMap(([, rows]) => rows.filter((row) => PINNED.has(keyOf(row))));
  if (pinned.length) shown.push({ head: "pinned", said: "", isBad: false }, ...pinned);
  for (const [socket, rows] of GROUPS) {
    const kept = rows.filter((row) => !PINNED.has(keyOf(row)) && isLeft(socket, row) && (all || lives(row, from, to)));
    if (!kept.length || (!all && kept.every((row) => row.kind === "sock" && row.shades.length < 2))) continue;
    shown.push(headOf(socket, kept));
    shown.push(...(FOLDED.has(socket) ? kept.filter((row) => row.kind === "call" && ONLY.g !== null) : kept));
  }
  return shown;
}

// The head of a connection's rows. If the connection is folded, its head has the calls of all its rows.
function headOf(socket, rows) {
  const who = new Set(rows.map((row) => row.g ?? row.name).filter((g) => Number.isInteger(g) || socket === OTHERS)).size, peer = D.peers[socket];
  const asked = (D.requests[socket] || []).join("; ");
  const said = `${asked ? ` · request ${asked}` : ""}${who ? ` · ${many(who, "goroutine")}` : ""}${peer === undefined ? "" : ` · other end: connection ${peer}`}`;
  const isBad = ofStories().has(socket), isFolded = FOLDED.has(socket);
  const calls = isFolded ? rows.filter((row) => row.kind === "call") : [];
  return { head: nameOf(socket), socket, said: socket === OTHERS ? said + leftOut() : said, isBad, isFolded, folded: calls };
}

// A group by its name.
function nameOf(socket) {
  return { [OTHERS]: "waits outside of sockets", [-1]: "no connection" }[socket] ?? `connection ${socket}`;
}

function fold(socket) {
  if (!FOLDED.delete(socket)) FOLDED.add(socket);
  show(V.from, V.span);
}

function pin(row) {
  if (!PINNED.delete(keyOf(row))) PINNED.add(keyOf(row));
  show(V.from, V.span);
}

// Limits the rows to a connection or a goroutine. If both are null, shows all rows.
function only(socket, goroutine) {
  Object.assign(ONLY, { s: socket, g: goroutine });
  V.top = 0;
  show(V.from, V.span);
  fillPanel();
}

// The connection to which a row belongs.
const socketOf = (row) => GROUPS.find(([, rows]) => rows.includes(row))?.[0] ?? null;
