// The tooltip, and the help.
const KEYS = [
  ["← →", "a position back, ahead"],
  ["Home End", "start, end"],
  [", .", "step of the story before, next"],
  ["+ − wheel", "zoom"],
  ["a d drag", "to the left, right"],
  ["0", "the whole run"],
  ["t", "by steps or by time"],
  ["/", "find a line, a function, sock 8, gor 14, a step"],
  ["n N", "next match, one before"],
  ["[ ]", "change of the row before, next"],
  ["↑ ↓", "other rows"],
  ["j k", "choose the next row, one before"],
  ["f p", "fold its connection; pin it"],
  ["o g", "only its connection; its goroutine"],
  ["m m", "a span: one end, the other; or drag with Shift"],
  ["c", LIVE ? "goto it" : "copy goto for the prompt"],
  ["S P", "save as SVG, as PNG"],
  ...(LIVE ? [["< >", "a step of the session back, ahead"], ["( )", "a call of its goroutine"], ["{ }", "to where a mark hits"]] : []),
  ["Esc", "forget what was found, filtered, picked"],
];
const SOURCE = [
  "Each value is netrev's own: it told what each step changed, and was asked for all cells and queues at",
  `${D.compared} positions, which agreed. Calls, arrows, suspects, causes, connections and lines of the program are what nrdb's rules`,
  `and the recorder's file say, unproved. ${IS_TRUE ? "The axis of time is by the recorder's time of each step." : ""}`,
].join(" ");
const STATES = [[DONE, "a call; darker below: its goroutine sleeps"], [FAILED, "it failed"], [HANGS, "it hangs, to the end"], [OPEN, "it hasn't ended"],
  [LISTENS, "it waits for connections"]];

// Shows the tooltip for what is under the pointer, if something is.
function hover(event) {
  const tip = $("tip"), row = rowAt(event.offsetY), position = Math.floor(positionAt(event.offsetX));
  tip.style.display = "none";
  if (!row || row.head || event.offsetX < labels() || position < BEGIN || position > END) return;
  const told = row.kind === "call" ? tellCall(row, position) : tellRun(row, position);
  if (!told) return;
  tip.replaceChildren(...told);
  tip.style.display = "block";
  tip.style.left = `${Math.max(4, Math.min(event.clientX + 14, innerWidth - tip.offsetWidth - 8))}px`;
  tip.style.top = `${Math.min(event.clientY + 16, innerHeight - tip.offsetHeight - 8)}px`;
}

// The tooltip for a run of a row's cell.
function tellRun(row, position) {
  const at = place(row.runs, position), wait = waitAt(row, position);
  if (wait) return tellWait(row, wait);
  if (at < 0 || (row.kind !== "clock" && !isHere(position))) return null;
  if (row.begins !== undefined && (position < row.begins || position >= row.ends)) return null;
  const [from, value] = row.runs[at], until = at + 1 < row.runs.length ? row.runs[at + 1][0] : null;
  const told = [element("b", `${row.title}: ${said(row, value, position)}`)];
  const words = ["sock", "due", "clock"].includes(row.kind) ? "" : wordsOf(row.cell, value);
  if (words) told.push(element("div", words));
  const begun = from > D.first && stepAt(from) ? `from ${from} (${stepAt(from)})` : `from ${from}`;
  told.push(element("div", `${begun} ${until === null ? "to the end" : `to ${until} (${stepAt(until)})`}`));
  const long = (until ?? D.last) - from;
  told.push(element("div", `${many(long, "step")}, ${time(timeAt(until ?? D.last) - timeAt(from))}`));
  if (from > D.first && lineAt(from)) told.push(element("div", lineAt(from), "line"));
  return told;
}

function tellWait(row, wait) {
  const told = [element("b", `${row.title}: ${wait.does}`), element("div", wait.last ? `from ${wait.first} to ${wait.last}` : `since ${wait.first}, to the end`)];
  return [...told, ...wait.stack.split(", ").filter(Boolean).map((call) => element("div", call, "line"))];
}

function tellCall(row, position) {
  const call = callAt(row, position);
  if (!call) return null;
  const came = [ENDS[call.state], call.came].filter(Boolean).join(": "), until = call.last || END;
  const told = [element("b", `${call.name} by ${whoIs(call.g)}${came ? `: ${came}` : ""}`)];
  const long = `${many(until - call.first + 1, "step")}, ${time(timeAt(until) - timeAt(call.first - 1))}`;
  told.push(element("div", call.last ? `steps ${call.first} to ${call.last}: ${long}` : `since step ${call.first}: ${long}`));
  if (call.waited) told.push(element("div", `asleep for ${many(call.waited, "step")}, ${time(call.slept)}`));
  if (call.line) told.push(element("div", call.line, "line"));
  return told;
}

function said(row, value, position) {
  if (row.kind === "clock") return time(Number(value));
  if (row.kind === "sock") return wordsOf("lock", value);
  if (row.kind !== "due") return value;
  if (Number(value) < 0) return "has passed";
  return value === "0" ? "none" : `at ${time(Number(value))}, in ${time(Number(value) - clockAt(position))}`;
}

function rowAt(y) {
  return y < V.head ? undefined : V.rows[Math.floor((y - V.head + V.top) / V.high)];
}

// A colour with its meaning.
function legend(colour, says) {
  const item = element("li"), box = element("i");
  box.style.background = colour;
  item.append(box, document.createTextNode(says));
  return item;
}

function fillHelp() {
  const help = $("help"), keys = element("ul"), colours = element("ul");
  for (const [key, says] of KEYS) {
    const item = element("li");
    item.append(element("kbd", key), document.createTextNode(says));
    keys.append(item);
  }
  colours.append(...STATES.map(([state, says]) => legend(colourOf({ state }), `call: ${says}`)));
  colours.append(...Object.entries(D.shades).map(([name, shade]) => legend(shadeOf[name], `${shade.of}: ${shade.says}`)));
  help.replaceChildren(element("h2", "Keys"), keys, element("h2", "Colours"), colours, element("h2", "What this is"), element("p", SOURCE));
}
