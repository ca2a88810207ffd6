// What part of the run is shown, which tick is pinned or pointed at, and who is told when that changes.

// Pixels a tick: the largest, those of a cell with words, and what one step of the zoom multiplies by.
const LARGEST_ZOOM = 110;
const WORDS_ZOOM = 15;
const ZOOM_STEP = 1.5;
// Up to this the first view widens the cells of a short run.
const ROOMY_ZOOM = 26;

// The left margin with the names, and the room for a value that changes in the last tick.
const LEFT = 150;
const RIGHT = 90;

const view = {
  from: 0,          // the tick at the left edge, with a fraction
  zoom: WORDS_ZOOM, // pixels a tick
  width: 0,         // pixels from the left margin to the right edge
  pinned: null,
  pointed: null,
};

const listeners = [];
function onViewChange(listener) { listeners.push(listener); }

// Many changes between two frames are drawn once.
let drawingAsked = false;
function viewChanged() {
  if (drawingAsked) return;
  drawingAsked = true;
  requestAnimationFrame(drawNow);
}
function drawNow() {
  drawingAsked = false;
  for (const listener of listeners) listener();
}

function tickToX(tick) { return LEFT + (tick - view.from) * view.zoom; }
function xToTick(x) { return view.from + (x - LEFT) / view.zoom; }
function shownTicks() { return view.width / view.zoom; }

// The tick under a point of the chart, or null beside the run.
function tickAt(x) {
  const tick = Math.floor(xToTick(x));
  return x >= LEFT && tick >= 0 && tick < run.ticks ? tick : null;
}

function clamp(value, least, most) { return Math.min(Math.max(value, least), Math.max(least, most)); }

// The zoom that shows the whole run; a short run does not fill the window.
function wholeZoom() {
  return clamp((view.width - RIGHT) / Math.max(run.ticks, 1), 0, WORDS_ZOOM);
}

function setView(from, zoom) {
  view.zoom = clamp(zoom, wholeZoom(), LARGEST_ZOOM);
  const last = run.ticks + RIGHT / view.zoom - shownTicks();
  view.from = clamp(from, 0, last);
  viewChanged();
}

// Zooms so that the tick at this x stays where it is.
function zoomAround(x, factor) {
  const tick = xToTick(x), zoom = clamp(view.zoom * factor, wholeZoom(), LARGEST_ZOOM);
  setView(tick - (x - LEFT) / zoom, zoom);
}

function scrollBy(ticks) { setView(view.from + ticks, view.zoom); }
function showFrom(tick) { setView(tick, view.zoom); }

function centre(tick, zoom = view.zoom) {
  const allowed = clamp(zoom, wholeZoom(), LARGEST_ZOOM);
  setView(tick + 0.5 - view.width / allowed / 2, allowed);
}

function middleTick() {
  return clamp(Math.floor(view.from + Math.min(shownTicks(), run.ticks) / 2), 0, run.ticks - 1);
}

// Pins a tick, and moves the window if the tick is not well inside it.
function pin(tick) {
  if (run.ticks === 0) return;
  view.pinned = clamp(tick, 0, run.ticks - 1);
  const x = tickToX(view.pinned + 0.5) - LEFT, margin = Math.min(40, view.width / 10);
  if (x < margin || x > view.width - margin) centre(view.pinned);
  viewChanged();
}

function unpin() {
  view.pinned = null;
  viewChanged();
}

// The tick that the text beside the chart tells: the pinned one goes before the one pointed at.
function toldTick() { return view.pinned ?? view.pointed; }

function firstView() {
  const filling = (view.width - RIGHT) / Math.max(run.ticks, 1);
  setView(0, clamp(filling, WORDS_ZOOM, ROOMY_ZOOM));
}

// A canvas with a pixel for each of the screen's, and a context that counts in the page's pixels.
function sizedContext(canvas, width, height) {
  const ratio = window.devicePixelRatio || 1;
  const wide = Math.round(width * ratio), high = Math.round(height * ratio);
  if (canvas.width !== wide) canvas.width = wide;
  if (canvas.height !== high) canvas.height = high;
  const context = canvas.getContext("2d");
  context.setTransform(ratio, 0, 0, ratio, 0, 0);
  return context;
}
