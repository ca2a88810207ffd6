// The small signs of the chart, each drawn once for the rows and for the legend. They are those of the SVG chart.

const BLACK = "#000", GREY = "#888";

function line(context, colour, width, x1, y1, x2, y2) {
  context.strokeStyle = colour;
  context.lineWidth = width;
  context.beginPath();
  context.moveTo(x1, y1);
  context.lineTo(x2, y2);
  context.stroke();
}

function polygon(context, colour, points) {
  context.fillStyle = colour;
  context.beginPath();
  for (const [x, y] of points) context.lineTo(x, y);
  context.fill();
}

// An arrow that points down at (x, y).
function arrow(context, colour, x, y) {
  line(context, colour, 1, x, y - 12, x, y - 4);
  polygon(context, colour, [[x - 3, y - 5], [x + 3, y - 5], [x, y]]);
}

// A release at (x, y): an arrow where it starts a job, crossed out where it is dropped. One that waits stops at a bar, and
// its arrow comes from a bar where it starts at last.
function releaseSign(context, fate, x, y) {
  switch (fate) {
    case STARTS:
      arrow(context, BLACK, x, y);
      break;
    case WAITS:
      line(context, BLACK, 1, x, y - 12, x, y - 4);
      line(context, BLACK, 2, x - 3.5, y - 3.5, x + 3.5, y - 3.5);
      break;
    case STARTS_AFTER_WAITING:
      line(context, BLACK, 2, x - 3.5, y - 12, x + 3.5, y - 12);
      arrow(context, BLACK, x, y);
      break;
    case DROPPED:
      arrow(context, GREY, x, y);
      line(context, BLACK, 1.6, x - 3.5, y - 12, x + 3.5, y - 3);
      line(context, BLACK, 1.6, x - 3.5, y - 3, x + 3.5, y - 12);
      break;
  }
}

// The same where ticks are narrow: no more than a head, a bar or a cross.
function smallReleaseSign(context, fate, x, y) {
  if (fate === WAITS) line(context, "#666", 1.4, x - 2.5, y - 1, x + 2.5, y - 1);
  else if (fate !== DROPPED) polygon(context, BLACK, [[x - 2.5, y - 5], [x + 2.5, y - 5], [x, y]]);
  else {
    line(context, BLACK, 1.2, x - 2.5, y - 5, x + 2.5, y);
    line(context, BLACK, 1.2, x - 2.5, y, x + 2.5, y - 5);
  }
}

// A full circle for yes, an open one for no.
function commitSign(context, yes, x, y, radius = 3.2) {
  context.beginPath();
  context.arc(x, y - 6, radius, 0, 2 * Math.PI);
  context.fillStyle = yes ? BLACK : "#fff";
  context.strokeStyle = BLACK;
  context.lineWidth = 1.4;
  context.fill();
  if (!yes) context.stroke();
}

// An arrow back, below the cell whose right edge is at x: the transaction restarts.
function lostSign(context, x, y) {
  line(context, BLACK, 1.2, x - 8, y + 4.5, x, y + 4.5);
  line(context, BLACK, 1.2, x, y, x, y + 5);
  polygon(context, BLACK, [[x - 7, y + 1.5], [x - 7, y + 7.5], [x - 13, y + 4.5]]);
}

// A bar inside the right edge of a cell, so that the next cell does not cover it.
function jobEndSign(context, x, y, height, width = 2.6) {
  context.fillStyle = BLACK;
  context.fillRect(x - width, y, width, height + 3);
}

function preemptedSign(context, from, to, y) {
  context.setLineDash([2, 3]);
  line(context, "#555", 1.4, from, y, to, y);
  context.setLineDash([]);
}

function changeSign(context, x, y, size = 4) {
  polygon(context, BLACK, [[x, y - size], [x + size, y], [x, y + size], [x - size, y]]);
}

// Each sign around the middle of a small picture, in the order in which run.signs says what they mean.
const SIGNS = [
  (context, x, y) => releaseSign(context, STARTS, x, y + 6),
  (context, x, y) => releaseSign(context, WAITS, x, y + 6),
  (context, x, y) => releaseSign(context, STARTS_AFTER_WAITING, x, y + 6),
  (context, x, y) => releaseSign(context, DROPPED, x, y + 6),
  (context, x, y) => preemptedSign(context, x - 12, x + 12, y),
  (context, x, y) => commitSign(context, true, x, y + 6),
  (context, x, y) => commitSign(context, false, x, y + 6),
  (context, x, y) => lostSign(context, x + 6, y - 4),
  (context, x, y) => jobEndSign(context, x + 1.3, y - 6, 9),
  (context, x, y) => changeSign(context, x, y),
];

function buildLegend() {
  const kinds = document.getElementById("kinds"), signs = document.getElementById("signs");
  for (const kind of run.kinds) {
    const item = document.createElement("li");
    item.append(swatch(kind), kind.explanation);
    kinds.append(item);
  }
  for (const [index, explanation] of run.signs.entries()) {
    const item = document.createElement("li"), canvas = document.createElement("canvas");
    SIGNS[index](sizedContext(canvas, 30, 20), 15, 10);
    item.append(canvas, explanation);
    signs.append(item);
  }
}

function swatch(kind) {
  const box = document.createElement("span");
  box.className = kind.outlined ? "swatch outlined" : "swatch";
  box.style.background = kind.colour;
  return box;
}
