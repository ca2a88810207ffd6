// The overview: the whole run in one strip, and a frame around the part that the chart shows.

const overview = document.getElementById("overview");
const LANE_HEIGHT = 7;
const MARKS_HEIGHT = 11;
const OVERVIEW_SCALE = 14;
// The frame of a short part is widened so that it can be seen and held.
const SMALLEST_FRAME = 9;

const RELEASE_COLOUR = "#1a56c4", LOSS_COLOUR = "#a51c30";

// A row of marks for each sort of event: its name, its colour, and its ticks.
function overviewRows() {
  return [
    ["releases", RELEASE_COLOUR, jumpOf("release").ticks],
    ["drops", LOSS_COLOUR, jumpOf("drop").ticks],
    ["lost attempts", "#d4681f", jumpOf("lost").ticks],
    ["commits: yes", BLACK, jumpOf("yes").ticks],
    ["commits: no", LOSS_COLOUR, jumpOf("no").ticks],
  ];
}

const LANES_TOP = OVERVIEW_SCALE;
const marksTop = LANES_TOP + run.tasks.length * LANE_HEIGHT + 4;
const overviewHeight = marksTop + 5 * MARKS_HEIGHT + 2;

// The strip itself is drawn once for a width; only the frame moves.
const strip = document.createElement("canvas");
let stripWidth = 0;

function overviewWidth() { return overview.clientWidth; }
function overviewScale() { return Math.max(1, overviewWidth() - LEFT - 8) / Math.max(run.ticks, 1); }
function overviewX(tick) { return LEFT + tick * overviewScale(); }
function overviewTick(x) { return (x - LEFT) / overviewScale(); }

function drawOverview() {
  const width = overviewWidth();
  const context = sizedContext(overview, width, overviewHeight);
  if (stripWidth !== overview.width) drawStrip(width);
  context.drawImage(strip, 0, 0, width, overviewHeight);
  drawFrame(context);
  if (view.pinned !== null) drawStroke(context, "#1a56c4", Math.round(overviewX(view.pinned + 0.5)), 0, overviewHeight);
}

function drawStrip(width) {
  const context = sizedContext(strip, width, overviewHeight);
  stripWidth = strip.width;
  context.fillStyle = "#fff";
  context.fillRect(0, 0, width, overviewHeight);
  context.font = `10px ${FAMILY}`;
  drawStripScale(context, width);
  drawLanes(context);
  overviewRows().forEach(([name, colour, ticks], row) => {
    const y = marksTop + row * MARKS_HEIGHT;
    context.fillStyle = "#333";
    context.fillText(name, 6, y + 9);
    line(context, "#e4e4e4", 1, LEFT, y + 0.5, width, y + 0.5);
    drawMarks(context, colour, ticks, y + 2);
  });
}

// A mark for each pixel, the darker the more events it stands for.
function drawMarks(context, colour, ticks, y) {
  const counts = new Map();
  for (const tick of ticks) {
    const x = Math.round(overviewX(tick));
    counts.set(x, (counts.get(x) ?? 0) + 1);
  }
  const most = Math.max(...counts.values());
  for (const [x, count] of counts) {
    context.globalAlpha = 0.45 + 0.55 * count / most;
    drawStroke(context, colour, x, y, MARKS_HEIGHT - 3);
  }
  context.globalAlpha = 1;
}

function drawStripScale(context, width) {
  const step = scaleStep(overviewScale(), 70);
  context.fillStyle = "#444";
  context.fillText("whole run", 6, 10);
  for (let tick = 0; tick < run.ticks; tick += step) {
    const x = overviewX(tick), text = String(tick);
    line(context, "#ccc", 0.7, x, 2, x, overviewHeight);
    if (x + context.measureText(text).width + 3 < width) context.fillText(text, x + 3, 10);
  }
}

// A lane for each task, the darker the larger its share of the ticks in the pixel. What ran at all is not lost.
function drawLanes(context) {
  const size = Math.max(1, Math.floor(1 / overviewScale())), bins = binned(0, run.ticks, size);
  const tasks = run.tasks.length, kinds = run.kinds.length;
  context.fillStyle = "#1b2440";
  for (let bin = 0; bin < bins.bins; bin++) {
    const x = Math.round(overviewX(bin * size)), width = Math.max(1, Math.round(overviewX((bin + 1) * size)) - x);
    for (let task = 0; task < tasks; task++) {
      let ticks = 0;
      for (let kind = 0; kind < kinds; kind++) ticks += bins.ran[(bin * tasks + task) * kinds + kind];
      if (ticks === 0) continue;
      context.globalAlpha = 0.3 + 0.7 * ticks / size;
      context.fillRect(x, LANES_TOP + (tasks - 1 - task) * LANE_HEIGHT, width, LANE_HEIGHT - 1);
    }
  }
  context.globalAlpha = 1;
  context.fillStyle = "#333";
  const label = tasks === 1 ? "t0" : `t${tasks - 1} (top) to t0`;
  context.fillText(label, 6, LANES_TOP + tasks * LANE_HEIGHT / 2 + 4);
}

function drawFrame(context) {
  const from = overviewX(view.from), to = overviewX(Math.min(view.from + shownTicks(), run.ticks));
  const middle = (from + to) / 2, width = Math.max(to - from, SMALLEST_FRAME);
  context.fillStyle = "rgba(26, 86, 196, 0.13)";
  context.fillRect(middle - width / 2, 0, width, overviewHeight);
  context.strokeStyle = "#1a56c4";
  context.lineWidth = 1.5;
  context.strokeRect(middle - width / 2, 1, width, overviewHeight - 2);
}
