// What is above the rows: the whole run with what is in view, the ruler with the steps, and the marks.
const SIZES = [1, 2, 5].flatMap((one) => Array.from({ length: 12 }, (_, power) => one * 10 ** power)).sort((one, other) => one - other);

// The whole run: how many calls begin at each place, the stories, the marks, the matches, the part with values, and the view.
function drawOverview(wide) {
  const left = labels(), x = (position) => left + shareOf(position) * room();
  const count = Math.max(1, Math.floor(room()));
  if (!density || density.bars.length !== count) density = counted(count);
  X.fillStyle = ink.quiet;
  X.fillRect(left, 8, room(), 22);
  X.fillStyle = ink.soft;
  density.bars.forEach((many, at) => {
    const tall = 20 * Math.sqrt(many / density.most);
    if (many) X.fillRect(left + at, 30 - tall, Math.max(1, Math.min(room() / COUNT, 6)), tall);
  });
  X.fillStyle = ink.hit;
  for (const at of V.hits) X.fillRect(x(at), 8, 1, 22);
  if (D.last - D.first + 1 < COUNT) X.fillRect(x(D.first), 31, Math.max(x(D.last + 1) - x(D.first), 2), 3);
  X.fillStyle = ink.mark;
  for (const mark of D.marks) for (const at of mark.hits) X.fillRect(x(at), 8, 1.5, 6);
  X.fillStyle = ink.bad;
  for (const story of STORIES) X.fillRect(x(story.step) - 1, 5, 3, 28);
  X.fillStyle = ink["accent-ground"];
  X.strokeStyle = ink.accent;
  const from = x(V.from), span = Math.max(x(V.from + V.span) - from, 3);
  X.fillRect(from, 6, span, 26);
  X.strokeRect(from + 0.5, 6.5, span - 1, 25);
  X.fillRect(x(V.chosen), 6, 1.5, 26);
  if (LIVE) drawStandAbove(x(D.position));
  X.fillStyle = ink.soft;
  X.font = `11px ${SANS}`;
  X.fillText(left < 100 ? "run" : "the whole run", 12, 19);
}

function counted(count) {
  const bars = new Float32Array(count);
  let most = 1;
  for (const { first } of CALLS) {
    const at = Math.min(count - 1, Math.max(0, Math.floor(shareOf(first) * count)));
    most = Math.max(most, ++bars[at]);
  }
  return { bars, most };
}

// The positions or times, the marks, and, if there is room, the steps that led to the positions.
function drawRuler(wide) {
  const step = perStep();
  X.font = `11px ${MONO}`;
  if (V.byTime) drawTimes(wide);
  else drawPositions(wide, step);
  if (step >= WIDE) drawSteps(step);
  else if (step >= SLANTED) drawSlanted(wide);
  X.fillStyle = ink.panel;
  X.fillRect(0, 38, labels(), V.head - 39);
  X.fillStyle = ink.soft;
  X.font = `11px ${SANS}`;
  X.fillText(V.byTime ? "time" : "position", 12, 46);
  if (step >= SLANTED) X.fillText("step", 12, 66);
  drawMarks(step);
}

function drawPositions(wide, step) {
  const every = SIZES.find((size) => size * step >= 56) ?? SIZES[SIZES.length - 1];
  for (let at = Math.ceil(V.from / every) * every; at <= Math.min(V.from + V.span, END); at += every) {
    drawTick(xOf(at), String(at), at === V.chosen, wide);
  }
}

// The times in view, at round intervals.
function drawTimes(wide) {
  const from = timeAt(V.from), long = Math.max(timeAt(V.from + V.span) - from, 1), pixels = room() / long;
  const every = SIZES.find((size) => size * pixels >= 84) ?? SIZES[SIZES.length - 1];
  for (let at = Math.ceil(from / every) * every; at <= from + long; at += every) drawTick(labels() + (at - from) * pixels, time(at), false, wide);
}

function drawTick(x, text, isChosen, wide) {
  X.fillStyle = ink.line;
  X.fillRect(x, 38, 1, V.head - 38);
  X.fillStyle = isChosen ? ink.accent : ink.soft;
  if (x + 4 + X.measureText(text).width < wide) X.fillText(text, x + 4, 46);
}

function drawSteps(step) {
  X.font = `10.5px ${MONO}`;
  for (let at = Math.max(Math.floor(V.from), BEGIN); at <= Math.min(V.from + V.span, END); at++) {
    const [kind, ...rest] = stepAt(at).split(" "), x = xOf(at) + 4;
    X.fillStyle = ink.ink;
    X.fillText(fit(kind, step - 6), x, 64);
    X.fillStyle = ink.soft;
    X.fillText(fit(rest.join(" "), step - 6), x, 79);
  }
}

// The kinds of the steps, slanted because the columns are narrow.
function drawSlanted(wide) {
  X.font = `10.5px ${MONO}`;
  X.fillStyle = ink.ink;
  for (let at = Math.max(Math.floor(V.from), BEGIN); at <= Math.min(V.from + V.span, END); at++) {
    const x = xOf(at) + 7;
    if (x < labels() || x > wide) continue;
    X.save();
    X.translate(x, V.head - 13);
    X.rotate(-0.56);
    X.fillText(stepAt(at).split(" ")[0], 0, 0);
    X.restore();
  }
}

function drawMarks(step) {
  X.fillStyle = ink.mark;
  for (const mark of D.marks) {
    for (const at of mark.hits) {
      const x = xOf(at) + Math.min(step / 2, 8);
      if (x < labels() || x > G.wide) continue;
      X.beginPath();
      X.moveTo(x - 4, V.head - 9);
      X.lineTo(x + 4, V.head - 9);
      X.lineTo(x, V.head - 2);
      X.fill();
    }
  }
}
