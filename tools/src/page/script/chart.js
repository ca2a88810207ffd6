// The chart: a scale, a row for each task with the highest on top, and below them the words and blocks that change.

const SCALE_HEIGHT = 20;
// The room above the cells for releases and commits, and below them for lost attempts.
const ABOVE = 16;
const CELL_HEIGHT = 48;
const BELOW = 9;
const ROW_HEIGHT = ABOVE + CELL_HEIGHT + BELOW;
const SERIES_HEIGHT = 16;

// Pixels a tick from which on each tick has its own cell, the cell an outline, its word beside it or across it.
const CELL_ZOOM = 1.5;
const OUTLINE_ZOOM = 5;
const UPWARD_ZOOM = 12;
const ACROSS_ZOOM = 62;
// From here on signs have their full size.
const SIGN_ZOOM = 6;
// How far a release stands beside one that waited and starts in the same tick.
const BESIDE = 9;

const FAMILY = "Helvetica, Arial, 'Liberation Sans', 'DejaVu Sans', sans-serif";
const SMALL = `11px ${FAMILY}`;
const WORD_SIZE = 10;
const BOLD = `bold 12px ${FAMILY}`;

const chart = document.getElementById("chart");
const shownSeries = run.series.filter((series) => series.ticks.length > 0);
const rowsEnd = SCALE_HEIGHT + run.tasks.length * ROW_HEIGHT;
const chartHeight = rowsEnd + shownSeries.length * SERIES_HEIGHT + 6;

function cellsTop(task) { return SCALE_HEIGHT + (run.tasks.length - 1 - task) * ROW_HEIGHT + ABOVE; }

function drawChart() {
  const context = sizedContext(chart, LEFT + view.width, chartHeight);
  context.fillStyle = "#fff";
  context.fillRect(0, 0, LEFT + view.width, chartHeight);
  context.font = SMALL;
  context.textBaseline = "alphabetic";
  const first = clamp(Math.floor(view.from), 0, run.ticks);
  const last = clamp(Math.ceil(view.from + shownTicks()), first, run.ticks);
  context.save();
  context.beginPath();
  context.rect(LEFT, 0, view.width, chartHeight);
  context.clip();
  if (view.zoom >= CELL_ZOOM) drawIdle(context, first, last);
  drawHighlight(context, view.pointed, "#e9effa");
  drawHighlight(context, view.pinned, "#d0dff7");
  if (view.zoom >= CELL_ZOOM) drawCells(context, first, last); else drawColumns(context, first, last);
  drawScale(context);
  drawReleases(context, first, last);
  drawSeries(context);
  drawTickMark(context, view.pinned, "#1a56c4");
  if (view.pointed !== view.pinned) drawTickMark(context, view.pointed, "#555");
  context.restore();
  drawMargin(context);
}

function drawHighlight(context, tick, colour) {
  if (tick === null) return;
  context.fillStyle = colour;
  context.fillRect(tickToX(tick), SCALE_HEIGHT, Math.max(view.zoom, 2), chartHeight - SCALE_HEIGHT);
}

// The tick's number in the scale, and for narrow ticks a line down to the lower edge.
function drawTickMark(context, tick, colour) {
  if (tick === null) return;
  const [left, right] = markEdges(context, tick), middle = tickToX(tick + 0.5);
  context.fillStyle = colour;
  context.fillRect(left, 1, right - left, 15);
  if (view.zoom < SIGN_ZOOM) context.fillRect(middle - 0.5, 15, 1, chartHeight - 15);
  context.fillStyle = "#fff";
  context.fillText(String(tick), left + 4, 12.5);
}

// Where the number of a pinned or pointed tick begins and ends.
function markEdges(context, tick) {
  const width = context.measureText(String(tick)).width + 8, left = tickToX(tick + 0.5) - width / 2;
  return [left, left + width];
}

// The distance between two numbers of a scale that leaves room for them: 1, 2 or 5 with zeros.
function scaleStep(zoom, room) {
  for (let power = 1; ; power *= 10) {
    for (const digit of [1, 2, 5]) if (digit * power * zoom >= room) return digit * power;
  }
}

function drawScale(context) {
  const step = scaleStep(view.zoom, 60);
  const marks = [view.pinned, view.pointed].filter((tick) => tick !== null).map((tick) => markEdges(context, tick));
  context.fillStyle = "#000";
  for (let tick = Math.ceil(view.from / step) * step; tick < Math.min(run.ticks, view.from + shownTicks()); tick += step) {
    const x = tickToX(tick), text = String(tick);
    line(context, "#ccc", 0.7, x, 15, x, chartHeight);
    // A wide cell has its number in its middle, a narrow one behind the line at its left edge.
    const width = context.measureText(text).width;
    const start = x + (view.zoom >= WORDS_ZOOM ? (view.zoom - width) / 2 : 3);
    if (marks.every(([left, right]) => start > right || start + width < left)) context.fillText(text, start, 12.5);
  }
  for (let row = 1; row <= run.tasks.length; row++) {
    const y = SCALE_HEIGHT + row * ROW_HEIGHT;
    line(context, "#bbb", 0.7, LEFT, y, Math.min(LEFT + view.width, tickToX(run.ticks)), y);
  }
}

// The longest stretches of ticks for which the test holds.
function* stretches(first, last, test) {
  for (let tick = first; tick < last; tick++) {
    if (!test(tick)) continue;
    const start = tick;
    while (tick < last && test(tick)) tick++;
    yield [start, tick];
  }
}

function drawIdle(context, first, last) {
  context.textAlign = "center";
  for (const [start, end] of stretches(first, last, isIdle)) {
    const x = tickToX(start), width = (end - start) * view.zoom;
    context.fillStyle = "#ececec";
    context.fillRect(x, SCALE_HEIGHT, width, rowsEnd - SCALE_HEIGHT);
    const [from, to] = idleStretch(start), whole = `${to - from} idle`;
    const text = [whole, "idle"].find((text) => context.measureText(text).width <= width - 2);
    context.fillStyle = "#444";
    if (text) context.fillText(text, x + width / 2, SCALE_HEIGHT + 12);
  }
  context.textAlign = "left";
}

function drawCells(context, first, last) {
  run.tasks.forEach((_, task) => {
    const middle = cellsTop(task) + CELL_HEIGHT / 2;
    const isPreempted = (tick) => (run.preempted[tick] >> task & 1) === 1;
    for (const [start, end] of stretches(first, last, isPreempted)) preemptedSign(context, tickToX(start), tickToX(end), middle);
  });
  for (let tick = first; tick < last; tick++) if (!isIdle(tick)) drawCell(context, tick);
  // Signs reach into the next cells, so they come when all cells are there.
  for (let tick = first; tick < last; tick++) drawEvents(context, tick);
}

function drawCell(context, tick) {
  const x = tickToX(tick), top = cellsTop(taskOf(tick)), kind = run.kinds[statementOf(tick).kind];
  context.fillStyle = kind.colour;
  if (view.zoom < OUTLINE_ZOOM) {
    context.fillStyle = seenColour(kind);
    context.fillRect(x, top, view.zoom, CELL_HEIGHT);
    return;
  }
  // A little smaller than the cell, so that neighbours do not cover its outline.
  context.fillRect(x + 0.5, top, view.zoom - 1, CELL_HEIGHT);
  context.strokeStyle = kind.outlined ? "#c2410c" : "#333";
  context.lineWidth = kind.outlined ? 1.6 : 0.6;
  if (kind.outlined) context.setLineDash([3, 2]);
  context.strokeRect(x + 0.5, top, view.zoom - 1, CELL_HEIGHT);
  context.setLineDash([]);
  context.fillStyle = kind.dark ? "#fff" : "#000";
  if (view.zoom >= ACROSS_ZOOM) drawWordAcross(context, tick, x, top);
  else if (view.zoom >= UPWARD_ZOOM) drawWordUpward(context, tick, x, top);
}

// A white cell without an outline would not be seen.
function seenColour(kind) { return kind.colour === "#ffffff" ? "#a9b4c6" : kind.colour; }

function cellText(tick) {
  const subject = subjectOf(tick);
  return subject ? `${statementOf(tick).word} ${subject.short}` : statementOf(tick).word;
}

// The largest text no wider than the room, at most in the given size.
function fittingFont(context, text, size, room) {
  context.font = `${size}px ${FAMILY}`;
  const width = context.measureText(text).width;
  if (width > room) context.font = `${size * room / width}px ${FAMILY}`;
}

function drawWordUpward(context, tick, x, top) {
  const text = cellText(tick);
  context.save();
  context.translate(x + view.zoom / 2 + WORD_SIZE * 0.36, top + CELL_HEIGHT - 3);
  context.rotate(-Math.PI / 2);
  fittingFont(context, text, WORD_SIZE, CELL_HEIGHT - 5);
  context.fillText(text, 0, 0);
  context.restore();
}

function drawWordAcross(context, tick, x, top) {
  const middle = x + view.zoom / 2, room = view.zoom - 10, subject = subjectOf(tick);
  const lines = [statementOf(tick).word, ...(subject ? [subject.name] : [])];
  context.textAlign = "center";
  lines.forEach((text, index) => {
    context.font = SMALL;
    context.fillText(shortened(context, text, room), middle, top + CELL_HEIGHT / 2 + 4 + (index - (lines.length - 1) / 2) * 15);
  });
  context.textAlign = "left";
  context.font = SMALL;
}

// The text, or as much of its front as fits the room.
function shortened(context, text, room) {
  if (context.measureText(text).width <= room) return text;
  const letters = Array.from(text);
  while (letters.length > 0 && context.measureText(letters.join("") + "…").width > room) letters.pop();
  return letters.join("") + "…";
}

function drawEvents(context, tick) {
  const events = run.events[tick], x = tickToX(tick), top = cellsTop(taskOf(tick)), right = x + view.zoom;
  const large = view.zoom >= SIGN_ZOOM;
  if (events & ENDS_JOB && view.zoom >= 2.5) jobEndSign(context, right, top, CELL_HEIGHT, large ? 2.6 : 1);
  if (events & (ANSWERS_YES | ANSWERS_NO)) {
    commitSign(context, (events & ANSWERS_YES) !== 0, x + view.zoom / 2, top - 1, large ? 3.2 : 2);
  }
  if (events & (LOST_STALE | LOST_REJECTED)) {
    if (large) lostSign(context, right, top + CELL_HEIGHT); else drawSmallLost(context, right, top);
  }
}

function drawSmallLost(context, x, top) {
  polygon(context, BLACK, [[x, top + CELL_HEIGHT + 1], [x, top + CELL_HEIGHT + 8], [x - 5, top + CELL_HEIGHT + 4.5]]);
}

function drawReleases(context, first, last) {
  const { tick: ticks, task, fate } = run.releases;
  for (let index = countBelow(ticks, first); index < ticks.length && ticks[index] < last; index++) {
    // One may arrive where one that waited starts: then they stand side by side.
    const second = index > 0 && ticks[index - 1] === ticks[index] && task[index - 1] === task[index];
    // The arrow of the run's first tick stands inside the window as a whole.
    const x = Math.max(tickToX(ticks[index]), LEFT + 4), y = cellsTop(task[index]) - 1;
    if (view.zoom >= SIGN_ZOOM) releaseSign(context, fate[index], x + (second ? BESIDE : 0), y);
    else smallReleaseSign(context, fate[index], x, y - 8);
  }
}

// The names at the left: of each task with its lost attempts and drops, of each series with its value before the window.
function drawMargin(context) {
  context.fillStyle = "#444";
  context.fillText("tick", 6, 12.5);
  line(context, "#bbb", 1, LEFT - 0.5, 0, LEFT - 0.5, chartHeight);
  run.tasks.forEach((name, task) => {
    const middle = cellsTop(task) + CELL_HEIGHT / 2, [lost, dropped] = run.totals[task];
    context.font = BOLD;
    context.fillStyle = "#000";
    context.fillText(shortened(context, name, LEFT - 12), 6, middle + (lost + dropped > 0 ? -8 : 4));
    context.font = SMALL;
    context.fillStyle = "#444";
    const totals = [lost > 0 ? `${lost} lost` : "", dropped > 0 ? `${dropped} dropped` : ""].filter(Boolean);
    if (totals.length > 0) context.fillText(`${totals.join(", ")} in all`, 6, middle + 8);
    const y = SCALE_HEIGHT + (task + 1) * ROW_HEIGHT;
    line(context, "#bbb", 0.7, 0, y, LEFT, y);
  });
  shownSeries.forEach((series, index) => {
    const y = rowsEnd + SERIES_HEIGHT * (index + 0.5) + 6;
    const value = valueText(series, Math.floor(view.from)), width = context.measureText(value).width;
    context.fillStyle = "#000";
    context.fillText(shortened(context, series.name, LEFT - 20 - width), 6, y);
    context.fillText(value, LEFT - 6 - width, y);
  });
}

// The whole idle stretch around an idle tick, also where it goes on outside the window.
function idleStretch(tick) {
  let from = tick, to = tick + 1;
  while (from > 0 && isIdle(from - 1)) from--;
  while (to < run.ticks && isIdle(to)) to++;
  return [from, to];
}
