// Tries a page in a browser: does the steps that scripts/page-in-browser has put into the page, as a reader would, and writes
// what the page shows after each of them into an element of its own.

const LEFT_MARGIN = 150;

function frames(count) {
  return new Promise((done) => {
    const next = (left) => (left === 0 ? done() : requestAnimationFrame(() => next(left - 1)));
    next(count);
  });
}

// The address follows a moment after the drawing.
async function settled() {
  await frames(2);
  await new Promise((done) => setTimeout(done, 300));
}

const byId = (id) => document.getElementById(id);

// The place that the address names.
function place() {
  const parts = [...new URLSearchParams(location.hash.slice(1))];
  return Object.fromEntries(parts.map(([name, value]) => [name, Number(value)]));
}

// Where a tick's middle is on the chart, worked out from the address and not from the page's own variables.
function pointOf(tick, height) {
  const box = byId("chart").getBoundingClientRect(), { from, zoom } = place();
  return { clientX: box.left + 1 + LEFT_MARGIN + (tick + 0.5 - from) * zoom, clientY: box.top + height };
}

function pointer(target, type, point) {
  target.dispatchEvent(new PointerEvent(type, { ...point, pointerId: 1, bubbles: true, cancelable: true }));
}

const STEPS = {
  wait: () => {},
  key: (key, shiftKey = false) => {
    document.activeElement.dispatchEvent(new KeyboardEvent("keydown", { key, shiftKey, bubbles: true, cancelable: true }));
  },
  press: (id) => byId(id).click(),
  focus: (id) => byId(id).focus(),
  go: (text) => {
    byId("go-tick").value = text;
    byId("go").requestSubmit();
  },
  hash: (hash) => { location.hash = hash; },
  resize: (width) => {
    document.body.style.width = width;
    window.dispatchEvent(new Event("resize"));
  },
  point: (tick) => pointer(byId("chart"), "pointermove", pointOf(tick, 60)),
  leave: () => pointer(byId("chart"), "pointerleave", pointOf(0, 60)),
  click: (tick) => {
    pointer(byId("chart"), "pointerdown", pointOf(tick, 60));
    pointer(byId("chart"), "pointerup", pointOf(tick, 60));
  },
  drag: (from, to) => {
    const [start, end] = [pointOf(from, 60), pointOf(to, 60)];
    pointer(byId("chart"), "pointerdown", start);
    pointer(byId("chart"), "pointermove", end);
    pointer(byId("chart"), "pointerup", end);
  },
  wheel: (tick, options) => {
    byId("chart").dispatchEvent(new WheelEvent("wheel", { ...pointOf(tick, 60), ...options, bubbles: true, cancelable: true }));
  },
  // A press on the overview at a share of its strip, and a move to another one.
  overview: (from, to) => {
    const box = byId("overview").getBoundingClientRect(), width = byId("overview").clientWidth - LEFT_MARGIN - 8;
    const at = (share) => ({ clientX: box.left + 1 + LEFT_MARGIN + share * width, clientY: box.top + 20 });
    pointer(byId("overview"), "pointerdown", at(from));
    pointer(byId("overview"), "pointermove", at(to));
    pointer(byId("overview"), "pointerup", at(to));
  },
};

function colourAt(canvas, x, y) {
  const [column, row] = [x, y].map((number) => Math.round(number * window.devicePixelRatio));
  const pixel = canvas.getContext("2d").getImageData(column, row, 1, 1).data;
  return "#" + [...pixel.slice(0, 3)].map((part) => part.toString(16).padStart(2, "0")).join("");
}

// Which tasks the overview shows at a share of its strip, by the lanes that are not white; the frame only tints them.
function lanesAt(share) {
  const canvas = byId("overview"), rows = document.querySelectorAll(".figures tbody tr").length;
  const x = LEFT_MARGIN + share * (canvas.clientWidth - LEFT_MARGIN - 8);
  const isDark = (row) => parseInt(colourAt(canvas, x, 14 + row * 7 + 3).slice(1, 3), 16) < 190;
  return Array.from({ length: rows }, (_, row) => row).filter(isDark).map((row) => rows - 1 - row);
}

function shown() {
  const texts = (selector) => [...document.querySelectorAll(selector)].map((one) => one.textContent);
  const chart = byId("chart"), { from, zoom } = place(), tick = toldOnPage();
  const values = [...document.querySelectorAll("#values [data-place]")];
  const counts = [...document.querySelectorAll(".count")];
  return {
    title: byId("tick-title").textContent,
    statement: texts("#happens .statement").join(),
    sentence: texts("#happens .sentence").join(),
    command: texts("#happens .command").join(),
    events: texts("#happens li"),
    exchange: texts("#exchange > *"),
    values: Object.fromEntries(values.map((one) => [one.dataset.place, Number(one.textContent)])),
    changed: texts("#values .changed").map(Number),
    counts: Object.fromEntries(counts.map((one) => [one.id.replace("-count", ""), one.textContent])),
    disabled: [...document.querySelectorAll("button:disabled")].map((one) => one.id),
    answer: byId("go-answer").textContent,
    hint: byId("hint").hidden ? "" : byId("hint").textContent,
    hash: location.hash,
    from, zoom,
    width: chart.clientWidth - LEFT_MARGIN,
    pixels: chart.width / window.devicePixelRatio - chart.clientWidth,
    lanes: [0.02, 0.26, 0.3, 0.95].map(lanesAt),
    // The colours down the middle of the told tick, one for each task's row, the highest first. Left of the cell's word.
    column: tick === null ? [] : rowMiddles().map((y) => colourAt(chart, LEFT_MARGIN + (tick - from) * zoom + 2, y)),
  };
}

function toldOnPage() {
  const found = byId("tick-title").textContent.match(/^Tick (\d+)/);
  return found ? Number(found[1]) : null;
}

// The rows are as high as the scale's end and the number of tasks say: 20 pixels, then 73 for each.
function rowMiddles() {
  const rows = document.querySelectorAll(".figures tbody tr").length;
  return Array.from({ length: rows }, (_, row) => 20 + row * 73 + 16 + 8);
}

async function tryPage() {
  const steps = JSON.parse(byId("steps").textContent), found = [];
  await settled();
  for (const [name, ...values] of [["wait"], ...steps]) {
    STEPS[name](...values);
    await settled();
    found.push(shown());
  }
  return {
    steps: found,
    ready: Number(document.documentElement.dataset.ready),
    heading: document.querySelector("h1").textContent,
    documentTitle: document.title,
    source: byId("source").textContent,
    figures: byId("figures").textContent,
    table: [...document.querySelectorAll(".figures tbody tr")].map((row) => [...row.cells].map((cell) => cell.textContent)),
    requests: performance.getEntriesByType("resource").length,
    errors: window.pageErrors,
  };
}

tryPage()
  .catch((error) => ({ errors: [...window.pageErrors, String(error)] }))
  .then((found) => {
    const box = document.createElement("pre");
    box.id = "found";
    box.textContent = JSON.stringify(found);
    document.body.append(box);
  });
