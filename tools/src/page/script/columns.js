// The chart zoomed out: columns that stand for several ticks each.

// For each column and each task the shares of the kinds from the bottom up, and of preemption above them.
function drawColumns(context, first, last) {
  const size = Math.ceil(1 / view.zoom), start = Math.floor(first / size) * size;
  const bins = binned(start, last, size), tasks = run.tasks.length, kinds = run.kinds.length;
  const edges = Array.from({ length: bins.bins + 1 }, (_, bin) => Math.round(tickToX(Math.min(start + bin * size, last))));
  const share = CELL_HEIGHT / size;
  const heights = new Float32Array(bins.bins * tasks);
  context.fillStyle = "#ececec";
  for (let bin = 0; bin < bins.bins; bin++) {
    if (bins.idle[bin] * 2 <= size) continue;
    context.fillRect(edges[bin], SCALE_HEIGHT, edges[bin + 1] - edges[bin], rowsEnd - SCALE_HEIGHT);
  }
  const pile = (bin, task, ticks) => {
    const cell = bin * tasks + task, height = ticks * share;
    const bottom = cellsTop(task) + CELL_HEIGHT - heights[cell];
    heights[cell] += height;
    context.fillRect(edges[bin], bottom - height, edges[bin + 1] - edges[bin], height);
  };
  for (let kind = 0; kind <= kinds; kind++) {
    context.fillStyle = kind < kinds ? seenColour(run.kinds[kind]) : "#e2e2e2";
    for (let cell = 0; cell < bins.bins * tasks; cell++) {
      const ticks = kind < kinds ? bins.ran[cell * kinds + kind] : bins.preempted[cell];
      if (ticks > 0) pile(Math.floor(cell / tasks), cell % tasks, ticks);
    }
  }
  drawEventsOfColumns(context, first, last);
}

// At most one commit of each answer and one lost attempt for each pixel and task.
function drawEventsOfColumns(context, first, last) {
  const drawn = new Map();
  const isNew = (key, x) => { const known = drawn.get(key) === x; drawn.set(key, x); return !known; };
  for (let tick = first; tick < last; tick++) {
    const events = run.events[tick];
    if ((events & (ANSWERS_YES | ANSWERS_NO | LOST_STALE | LOST_REJECTED)) === 0) continue;
    const task = taskOf(tick), x = Math.round(tickToX(tick)), top = cellsTop(task);
    if (events & ANSWERS_YES && isNew(task, x)) drawStroke(context, BLACK, x, top - 5, 4);
    if (events & ANSWERS_NO && isNew(task + 8, x)) drawStroke(context, "#a51c30", x, top - 10, 4);
    const lost = (events & (LOST_STALE | LOST_REJECTED)) !== 0;
    if (lost && isNew(task + 16, x)) drawStroke(context, "#a51c30", x, top + CELL_HEIGHT + 2, 6);
  }
}

function drawStroke(context, colour, x, y, height) {
  context.fillStyle = colour;
  context.fillRect(x, y, 1, height);
}
