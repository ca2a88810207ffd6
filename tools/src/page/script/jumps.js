// Jumps to the next or previous release, drop, lost attempt or commit, by buttons and keys.

const hasEvent = (bits) => (tick) => (run.events[tick] & bits) !== 0;

function ticksWith(test) {
  const ticks = [];
  for (let tick = 0; tick < run.ticks; tick++) if (test(tick)) ticks.push(tick);
  return ticks;
}

// A tick with two releases is there twice, so that the numbers are those of the events.
function releaseTicks(test) {
  return Array.from(run.releases.tick).filter((_, index) => test(run.releases.fate[index]));
}

// A release that waited and starts has arrived before: it is counted once, where it arrives.
const JUMPS = [
  { id: "release", name: "release", key: "r", ticks: releaseTicks((fate) => fate !== STARTS_AFTER_WAITING) },
  { id: "drop", name: "drop", key: "d", ticks: releaseTicks((fate) => fate === DROPPED) },
  { id: "lost", name: "lost attempt", key: "l", ticks: ticksWith(hasEvent(LOST_STALE | LOST_REJECTED)) },
  { id: "yes", name: "commit: yes", key: "y", ticks: ticksWith(hasEvent(ANSWERS_YES)) },
  { id: "no", name: "commit: no", key: "n", ticks: ticksWith(hasEvent(ANSWERS_NO)) },
];

function jumpOf(id) { return JUMPS.find((jump) => jump.id === id); }

// The tick from which a jump goes: the pinned one, or the edge of the window that lies behind.
function jumpTarget(jump, forward) {
  const ticks = jump.ticks;
  if (forward) {
    const from = view.pinned ?? Math.ceil(view.from) - 1;
    return ticks[countBelow(ticks, from + 1)];
  }
  const from = view.pinned ?? Math.floor(view.from + shownTicks());
  return ticks[countBelow(ticks, from) - 1];
}

function jumpTo(jump, forward) {
  const tick = jumpTarget(jump, forward);
  if (tick !== undefined) pin(tick);
}

// "3 of 12" at such a tick, "3 and 4 of 12" where two are in it, else "12".
function jumpCount(jump) {
  const all = jump.ticks.length, tick = view.pinned;
  if (tick === null) return String(all);
  const first = countBelow(jump.ticks, tick), end = countBelow(jump.ticks, tick + 1);
  if (first === end) return String(all);
  return end - first === 1 ? `${end} of ${all}` : `${first + 1} to ${end} of ${all}`;
}

function buildJumps() {
  const box = document.getElementById("jumps"), keys = document.getElementById("jump-keys");
  for (const jump of JUMPS) {
    jump.before = jumpButton(jump, false);
    jump.after = jumpButton(jump, true);
    jump.count = element("span", "count");
    jump.count.id = `${jump.id}-count`;
    // Room for "12 of 12", so that the buttons behind do not move at every jump.
    if (jump.ticks.length > 0) jump.count.style.minWidth = `${2 * String(jump.ticks.length).length + 3}ch`;
    const name = element("span", "name", jump.name);
    const group = element("span", "group jump", jump.before, jump.after, name, jump.count);
    group.setAttribute("role", "group");
    group.setAttribute("aria-label", jump.name);
    box.append(group);
    const head = element("th", "", `${jump.key}, Shift + ${jump.key}`);
    head.scope = "row";
    keys.append(element("tr", "", head, element("td", "", `next and previous ${jump.name}`)));
  }
}

function jumpButton(jump, forward) {
  const way = forward ? "next" : "previous";
  const button = element("button", "", forward ? "▶" : "◀");
  button.type = "button";
  button.id = `${way}-${jump.id}`;
  button.title = `${way} ${jump.name} (key ${forward ? "" : "Shift + "}${jump.key})`;
  button.setAttribute("aria-label", `${way} ${jump.name}`);
  button.addEventListener("click", () => jumpTo(jump, forward));
  return button;
}

function tellJumps() {
  for (const jump of JUMPS) {
    jump.count.textContent = jumpCount(jump);
    jump.before.disabled = jumpTarget(jump, false) === undefined;
    jump.after.disabled = jumpTarget(jump, true) === undefined;
  }
}
