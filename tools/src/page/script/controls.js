// Pointer, wheel, keys, buttons and the address: what the reader does, and the start of the page.

const hint = document.getElementById("hint");

// ---- The wheel: Ctrl zooms (a pinch on a trackpad comes as Ctrl too), Shift or a sideways wheel scrolls, else the page scrolls.

const WHEEL_ZOOM = 0.0022;
// Browsers may count the wheel in lines or pages instead of pixels.
const PIXELS_A_LINE = 16;

function onWheel(event, xOnChart, pixelsToTicks) {
  const unit = [1, PIXELS_A_LINE, view.width][event.deltaMode];
  const sideways = event.shiftKey || Math.abs(event.deltaX) > Math.abs(event.deltaY);
  if (event.ctrlKey || event.metaKey) {
    zoomAround(xOnChart, Math.exp(-clamp(event.deltaY * unit, -300, 300) * WHEEL_ZOOM));
  } else if (sideways) {
    scrollBy((event.deltaX || event.deltaY) * unit * pixelsToTicks);
  } else {
    return;
  }
  event.preventDefault();
}

// ---- The pointer on the chart: it points, drags and pins; two fingers zoom.

// A press that moves less is a click.
const CLICK_REACH = 4;
const pointers = new Map();
let pressed = null;

// Where a pointer is on a canvas, whose border is not part of the drawing.
function xOn(canvas, event) { return event.clientX - canvas.getBoundingClientRect().left - canvas.clientLeft; }
function chartX(event) { return xOn(chart, event); }

function onChartDown(event) {
  pointers.set(event.pointerId, chartX(event));
  // A pointer that is gone by now cannot be held, and need not be.
  try { chart.setPointerCapture(event.pointerId); } catch { /* nothing to do */ }
  pressed = pointers.size === 1 ? { x: chartX(event), from: view.from, moved: false } : null;
}

function onChartMove(event) {
  const x = chartX(event);
  if (pointers.size === 2 && pointers.has(event.pointerId)) {
    pinch(event.pointerId, x);
  } else if (pressed) {
    pressed.moved ||= Math.abs(x - pressed.x) > CLICK_REACH;
    if (pressed.moved) {
      chart.classList.add("dragged");
      showFrom(pressed.from - (x - pressed.x) / view.zoom);
    }
  }
  if (pointers.has(event.pointerId)) pointers.set(event.pointerId, x);
  point(pressed?.moved ? null : tickAt(x));
  showHint(event);
}

function pinch(moving, x) {
  const [other] = [...pointers].filter(([id]) => id !== moving).map(([, at]) => at);
  const before = Math.abs(pointers.get(moving) - other), after = Math.abs(x - other);
  if (before > 0 && after > 0) zoomAround((x + other) / 2, after / before);
}

function onChartUp(event) {
  const tick = tickAt(chartX(event));
  pointers.delete(event.pointerId);
  chart.classList.remove("dragged");
  if (pressed && !pressed.moved && tick !== null) {
    if (view.pinned === tick) unpin(); else { view.pinned = tick; viewChanged(); }
  }
  pressed = null;
}

function onChartCancel(event) {
  pointers.delete(event.pointerId);
  pressed = null;
}

function point(tick) {
  if (view.pointed === tick) return;
  view.pointed = tick;
  viewChanged();
}

// One line at the pointer; the text beside the chart has the rest.
function showHint(event) {
  const tick = view.pointed;
  hint.hidden = tick === null;
  if (tick === null) return;
  hint.textContent = `tick ${tick}: ${summary(tick)}`;
  const x = chartX(event), y = event.clientY - chart.getBoundingClientRect().top, width = hint.offsetWidth;
  hint.style.left = `${clamp(x + 14, 0, LEFT + view.width - width)}px`;
  hint.style.top = `${y + 18}px`;
}

function onChartLeave() {
  hint.hidden = true;
  point(null);
}

// ---- The overview: a press beside the frame jumps there, then the frame follows the pointer.

let held = null;

function onOverviewDown(event) {
  const tick = overviewTick(xOn(overview, event));
  const reach = Math.max(shownTicks() / 2, SMALLEST_FRAME / 2 / overviewScale());
  const middle = view.from + shownTicks() / 2;
  try { overview.setPointerCapture(event.pointerId); } catch { /* as on the chart */ }
  if (Math.abs(tick - middle) > reach) centre(tick);
  held = { tick, from: view.from };
}

function onOverviewMove(event) {
  if (!held) return;
  const tick = overviewTick(xOn(overview, event));
  showFrom(held.from + tick - held.tick);
}

function onOverviewUp() { held = null; }

// ---- Keys.

// While the chart has the focus; elsewhere they scroll the page and press its buttons as always.
const CHART_KEYS = {
  PageUp: (shift) => step(-Math.floor(shownTicks()), -shownTicks(), shift),
  PageDown: (shift) => step(Math.floor(shownTicks()), shownTicks(), shift),
  Home: (shift) => step(-run.ticks, -run.ticks, shift),
  End: (shift) => step(run.ticks, run.ticks, shift),
  Enter: () => pin(view.pinned ?? middleTick()),
  " ": () => pin(view.pinned ?? middleTick()),
};

// Moves the pinned tick; without one, or with Shift, the window.
function step(ticks, windowTicks, shift) {
  if (view.pinned === null || shift) scrollBy(windowTicks); else pin(view.pinned + ticks);
}

const KEYS = {
  "ArrowLeft": (shift) => step(-1, -shownTicks() / 10, shift),
  "ArrowRight": (shift) => step(1, shownTicks() / 10, shift),
  "+": () => zoomHere(ZOOM_STEP),
  "=": () => zoomHere(ZOOM_STEP),
  "-": () => zoomHere(1 / ZOOM_STEP),
  "0": () => setView(0, 0),
  "1": () => centre(placeOfInterest(), WORDS_ZOOM),
  "g": () => document.getElementById("go-tick").focus(),
  "Escape": unpin,
};

// Where a zoom without a pointer goes: to the pinned tick if it is in the window, else to the middle.
function placeOfInterest() {
  const x = view.pinned === null ? -1 : tickToX(view.pinned);
  return x >= LEFT && x <= LEFT + view.width ? view.pinned : middleTick();
}

function zoomHere(factor) { zoomAround(tickToX(placeOfInterest() + 0.5), factor); }

function onKey(event) {
  // Ctrl, Alt and Meta are the browser's, and a field takes its own keys.
  if (event.ctrlKey || event.altKey || event.metaKey || event.target instanceof HTMLInputElement) return;
  const jump = JUMPS.find((one) => one.key === event.key.toLowerCase());
  const onChart = document.activeElement === chart && Object.hasOwn(CHART_KEYS, event.key);
  if (onChart) CHART_KEYS[event.key](event.shiftKey);
  else if (jump) jumpTo(jump, event.key === jump.key);
  else if (Object.hasOwn(KEYS, event.key)) KEYS[event.key](event.shiftKey);
  else return;
  event.preventDefault();
}

// ---- Going to a tick, by the field or by the address.

function onGo(event) {
  event.preventDefault();
  const field = document.getElementById("go-tick"), answer = document.getElementById("go-answer");
  const text = field.value.trim().replaceAll(",", ""), tick = Number(text);
  const good = /^[0-9]+$/.test(text) && tick < run.ticks;
  answer.textContent = good ? "" : run.ticks === 0 ? "the run has no ticks" : `ticks go from 0 to ${run.ticks - 1}`;
  if (!good) return;
  view.pinned = tick;
  centre(tick);
}

// #tick=120 is the pinned tick, from=88.5 the left edge, zoom=15 the pixels a tick. Any of them may be missing.
function showAddress() {
  const parts = new URLSearchParams(location.hash.slice(1));
  const number = (name) => {
    const text = parts.get(name);
    return text !== null && /^[0-9]+(\.[0-9]+)?$/.test(text) ? Number(text) : null;
  };
  const [tick, from, zoom] = ["tick", "from", "zoom"].map(number);
  if (tick !== null && run.ticks > 0) view.pinned = clamp(Math.floor(tick), 0, run.ticks - 1);
  if (from === null && tick !== null) centre(view.pinned ?? 0, zoom ?? view.zoom);
  else setView(from ?? view.from, zoom ?? view.zoom);
}

// Browsers limit how often the address may change, so it follows a moment later.
const ADDRESS_DELAY = 250;
let addressTimer = 0;

function addressLater() {
  clearTimeout(addressTimer);
  addressTimer = setTimeout(writeAddress, ADDRESS_DELAY);
}

function writeAddress() {
  const tick = view.pinned === null ? "" : `tick=${view.pinned}&`;
  const address = `#${tick}from=${rounded(view.from)}&zoom=${rounded(view.zoom)}`;
  if (address === location.hash) return;
  // Inside a frame of another page the address may be out of reach; the page does without.
  try { history.replaceState(null, "", address); } catch { /* nothing to do */ }
}

function rounded(number) { return Number(number.toPrecision(7)); }

// ---- The start.

function onResize() {
  // The heights first: a scrollbar that they bring takes some of the width.
  overview.style.height = `${overviewHeight}px`;
  chart.style.height = `${chartHeight}px`;
  view.width = Math.max(60, chart.clientWidth - LEFT);
  setView(view.from, view.zoom);
}

function listen() {
  const chartWheel = (event) => onWheel(event, Math.max(LEFT, chartX(event)), 1 / view.zoom);
  // Over the overview the middle of the window stays, and a pixel is one of the overview's.
  const overviewWheel = (event) => onWheel(event, LEFT + view.width / 2, 1 / overviewScale());
  chart.addEventListener("wheel", chartWheel, { passive: false });
  overview.addEventListener("wheel", overviewWheel, { passive: false });
  const listeners = [
    [chart, { pointerdown: onChartDown, pointermove: onChartMove, pointerup: onChartUp }],
    [chart, { pointercancel: onChartCancel, pointerleave: onChartLeave }],
    [overview, { pointerdown: onOverviewDown, pointermove: onOverviewMove }],
    [overview, { pointerup: onOverviewUp, pointercancel: onOverviewUp }],
    [document, { keydown: onKey }],
    [window, { resize: onResize, hashchange: showAddress }],
    [document.getElementById("go"), { submit: onGo }],
  ];
  for (const [target, events] of listeners) {
    for (const [name, listener] of Object.entries(events)) target.addEventListener(name, listener);
  }
  const buttons = {
    "zoom-in": KEYS["+"], "zoom-out": KEYS["-"], "zoom-whole": KEYS["0"], "zoom-words": KEYS["1"],
    "unpin": unpin, "tick-before": () => pin((toldTick() ?? 1) - 1), "tick-after": () => pin((toldTick() ?? -1) + 1),
  };
  for (const [id, act] of Object.entries(buttons)) document.getElementById(id).addEventListener("click", act);
}

function start() {
  buildLegend();
  buildJumps();
  tellUnchanged();
  for (const listener of [drawChart, drawOverview, tellTick, tellJumps, addressLater]) onViewChange(listener);
  listen();
  onResize();
  firstView();
  showAddress();
  drawNow();
  chart.focus({ preventScroll: true });
  // For tests: all is drawn, this many milliseconds after the page was asked for.
  document.documentElement.dataset.ready = performance.now().toFixed(1);
}

start();
