"use strict";
function timeline(D, LIVE) {
/*TIMELINE*/
return { stand, setMarks, setPart };
}

// The page of a shared session: events from nrdb, and the line to type. Text from nrdb and from other users becomes text nodes, never HTML.
(() => {
const $ = (name) => document.getElementById(name);
const TOKEN = new URLSearchParams(location.search).get("token") || "";
const MOST = 2000; // lines of the log
const SLOW = 1000; // milliseconds after which the page says that a line has no reply yet
const AGAIN = 2000; // milliseconds until the page connects to nrdb again
const LOST = "nrdb doesn't answer: what is typed isn't answered. Where it was ended, begin it anew, and open the address that it prints";
const NEXT = /^(\|\s+next:\s+)(\S.*)$/;
const MOVES = { "<": "reverse-stepi", ">": "stepi", "(": "reverse-next", ")": "next", "{": "reverse-continue", "}": "continue" };
const KEPT = 200; // the most typed lines that survive a reload
const PART = 8000, SOON = 200; // steps around the view whose values are asked for, and milliseconds until they are asked for
const S = { you: "", number: 0, picture: null, isAsked: false, stands: null, marks: [], slow: 0, typed: [], at: 0, part: 0, leaves: false };

// A button that sends a line that nrdb suggests.
function asking(line) {
  const button = document.createElement("button");
  button.type = "button";
  button.textContent = line;
  button.onclick = () => ask(line);
  return button;
}

// Adds a line to the log. If the log was scrolled to its end, it stays there.
function say(text, kind) {
  const log = $("log"), isAtEnd = log.scrollTop + log.clientHeight >= log.scrollHeight - 30;
  const made = document.createElement("div"), next = kind === "added" && NEXT.exec(text);
  made.textContent = next ? next[1] : text;
  made.className = kind;
  if (next) made.append(asking(next[2]));
  log.append(made);
  while (log.childElementCount > MOST) log.firstElementChild.remove();
  if (isAtEnd) log.scrollTop = log.scrollHeight;
}

function tellGone(text) {
  $("gone").textContent = text;
  $("gone").hidden = !text;
}

// Says that a line has no reply yet, if the reply takes longer than SLOW.
function wait(text) {
  clearTimeout(S.slow);
  $("busy").textContent = "";
  if (text) S.slow = setTimeout(() => { $("busy").textContent = text; }, SLOW);
}

const EVENTS = {
  you(event) {
    $("log").replaceChildren();
    Object.assign(S, { you: event.who, number: event.number });
    $("you").textContent = `${event.who}>`;
    document.title = event.recording ? `${event.recording} · netrev` : "netrev";
    load();
  },
  browsers(event) {
    const others = event.here.filter((name) => name !== S.you);
    $("here").textContent = others.length ? `with ${others.join(", ")}` : "no other browser is here";
  },
  line(event) {
    say(`${event.who}> ${event.line}`, event.who === S.you ? "asked own" : "asked");
    wait(`no reply yet to ${event.who}'s ${event.line}`);
  },
  said(event) {
    for (const line of event.lines) say(line, ["reply", "echo"].includes(event.of) ? "reply" : "added");
  },
  answered() {
    wait("");
  },
  unanswered(event) {
    wait("");
    say(`not answered: ${event.who}'s ${event.line}: ${event.why}`, "bad");
  },
  moved(event) {
    say(`${event.who} moved from ${event.from} to ${event.to}${event.line ? `: ${event.line}` : ""}`, "moved");
  },
  stands(event) {
    S.stands = event;
    $("stands").textContent = `at ${event.position} of ${event.steps}${event.direction === "reverse" ? ", reverse" : ""}`;
    showStand();
  },
  marks(event) {
    S.marks = event.marks;
    if (S.picture) S.picture.setMarks(S.marks);
  },
  picture(event) {
    making(event.says);
  },
  netrev(event) {
    tellGone(event.there ? "" : event.says);
    if (!event.there) wait("");
    else load();
  },
};

// Shows the session's position in the timeline.
function showStand() {
  if (S.picture && S.stands) S.picture.stand(S.stands.position, $("follow").checked);
}

// Shows nrdb's progress on the picture until the picture arrives.
function making(text) {
  if (!S.picture) $("part").textContent = text ? `${text}. Lines are answered meanwhile.` : "";
  $("part").hidden = Boolean(S.picture) || !text;
}

// Fetches JSON from a path, with the token.
async function fetched(path, headers = {}) {
  const answer = await fetch(path, { headers: { "Netrev-Token": TOKEN, ...headers } });
  if (!answer.ok) throw new Error(await answer.text());
  return answer.json();
}

// Loads the timeline, unless it is loaded or already requested.
async function load() {
  if (S.picture || S.isAsked) return;
  S.isAsked = true;
  making("the picture is being made");
  try {
    S.picture = timeline(await fetched("/timeline"), { ask, seen, position: () => (S.stands ? S.stands.position : 0) });
    S.picture.setMarks(S.marks);
    making("");
    showStand();
  } catch (error) {
    making("");
    $("panel").textContent = error.message;
  }
  S.isAsked = false;
}

// Asks for netrev's values around the view, if the view doesn't change for SOON milliseconds.
function seen(from, to, last) {
  clearTimeout(S.part);
  const first = Math.max(Math.round((from + to - PART) / 2), 0);
  S.part = setTimeout(async () => {
    try {
      S.picture.setPart(await fetched("/part", { "Netrev-Positions": `${first}-${Math.min(first + PART, last)}` }));
      S.picture.setMarks(S.marks);
    } catch (error) {
      $("said").textContent = error.message;
    }
  }, SOON);
}

// Posts a text to one of nrdb's paths. Returns nrdb's answer in `said`; if no answer came, the reason is in `why`.
async function posted(path, text) {
  try {
    const headers = { "Netrev-Token": TOKEN, "Netrev-Browser": String(S.number), "Content-Type": "text/plain;charset=utf-8" };
    const answer = await fetch(path, { method: "POST", headers, body: text }), said = await answer.text();
    return answer.ok ? { said } : { why: said };
  } catch {
    tellGone(LOST);
    return { why: LOST };
  }
}

// Sends a line. Its output arrives as events.
async function ask(line) {
  wait(`no reply yet to ${line}`);
  const { why } = await posted("/line", line);
  if (!why) return;
  wait("");
  say(`not answered: ${line}: ${why}`, "bad");
}

// Completes the last word before the cursor, as far as all candidates agree. If there are several candidates, lists them.
async function complete() {
  const field = $("line"), typed = field.value.slice(0, field.selectionStart), { said } = await posted("/complete", typed);
  const found = said ? JSON.parse(said) : [];
  if (field.value.slice(0, field.selectionStart) !== typed || !found.length) return;
  const word = typed.slice(typed.search(/[^ ;]*$/));
  const common = found.reduce((one, other) => { while (!other.startsWith(one)) one = one.slice(0, -1); return one; });
  const more = common.slice(word.length) + (found.length === 1 ? " " : "");
  field.setRangeText(more, typed.length, typed.length, "end");
  $("busy").textContent = found.length > 1 ? found.slice(0, 40).join("  ") : "";
}

// Listens to the events. If the connection ends, connects again. If nrdb refuses the connection, shows nrdb's reason.
function listen() {
  const address = `/events?token=${encodeURIComponent(TOKEN)}`, events = new EventSource(address);
  events.onopen = () => tellGone("");
  events.onmessage = (message) => {
    const event = JSON.parse(message.data);
    EVENTS[event.event](event);
  };
  events.onerror = async () => {
    wait("");
    tellGone(LOST);
    if (events.readyState !== EventSource.CLOSED) return;
    setTimeout(listen, AGAIN);
    const answer = await fetch(address).catch(() => null);
    if (answer && !answer.ok) tellGone(await answer.text());
    else if (answer) answer.body.cancel();
  };
}

// The lines that were typed in this tab, even before a reload.
function typedBefore() {
  try {
    return JSON.parse(sessionStorage.getItem("typed")) || [];
  } catch {
    return [];
  }
}

$("ask").addEventListener("submit", (event) => {
  event.preventDefault();
  const line = $("line").value.trim();
  if (!line) return;
  S.typed.push(line);
  S.at = S.typed.length;
  sessionStorage.setItem("typed", JSON.stringify(S.typed.slice(-KEPT)));
  $("line").value = $("busy").textContent = "";
  $("log").scrollTop = $("log").scrollHeight;
  ask(line);
});
$("line").addEventListener("keydown", (event) => {
  if (event.key === "Escape") S.leaves = true;
  if (event.key === "Tab" && !event.shiftKey && !S.leaves && $("line").value.trim()) {
    event.preventDefault();
    return void complete();
  }
  if (event.key !== "Escape") S.leaves = false;
  const way = { ArrowUp: -1, ArrowDown: 1 }[event.key];
  if (!way) return;
  event.preventDefault();
  S.at = Math.min(Math.max(S.at + way, 0), S.typed.length);
  $("line").value = S.typed[S.at] || "";
});
addEventListener("keydown", (event) => {
  const line = MOVES[event.key];
  if (!line || /^(text|search)$/.test(event.target.type) || event.ctrlKey || event.metaKey || event.altKey) return;
  event.preventDefault();
  ask(line);
});
for (const button of $("moves").children) button.onclick = () => ask(button.dataset.line);
$("follow").onchange = showStand;
S.typed = typedBefore();
S.at = S.typed.length;
listen();
})();
