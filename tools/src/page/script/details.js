// The text beside the chart: one tick in words, and what holds after it.

const FATES = ["is released and starts a job", "is released; the release waits: the job is unfinished",
  "starts the job of a release that waited", "is released; the release is dropped: four wait already"];

// The ticks that every exchange has, and what it counts: how many ticks each of them takes, and what it is.
const EXCHANGE_TICKS = 3;
const COUNTED = [["tried", 6, "words that it tried to install"], ["differed", 5, "1 if it stopped at a differing value"],
  ["fetched", 1, "its fetches of a saved value"], ["marked", 1, "its marks on other tasks"], ["failed", 1, "1 if an install failed"]];

const happens = document.getElementById("happens");
const exchange = document.getElementById("exchange");
const values = document.getElementById("values");
let told;

function element(name, className, ...content) {
  const made = document.createElement(name);
  if (className) made.className = className;
  made.append(...content);
  return made;
}

function tellTick() {
  const tick = toldTick();
  const state = `${tick},${view.pinned !== null}`;
  // Scrolling changes nothing here, and a reader of the screen should not hear it again.
  if (state === told) return;
  told = state;
  document.getElementById("unpin").disabled = view.pinned === null;
  document.getElementById("tick-before").disabled = tick === null || tick === 0;
  document.getElementById("tick-after").disabled = run.ticks === 0 || tick === run.ticks - 1;
  document.getElementById("tick-title").textContent =
    tick === null ? "No tick" : `Tick ${tick}${view.pinned === null ? "" : ", pinned"}`;
  happens.replaceChildren(...(tick === null ? [nothingTold()] : whatHappens(tick)));
  exchange.replaceChildren(...(tick === null ? [] : exchangeInWords(tick)));
  values.replaceChildren(...whatHolds(tick));
}

function nothingTold() {
  const text = run.ticks === 0
    ? "The run has no ticks: nothing is released, or the limit is 0."
    : "Point at a tick, or click one to pin it. What follows are the values at the start.";
  return element("p", "sentence", text);
}

function whatHappens(tick) {
  const parts = isIdle(tick) ? idleInWords(tick) : statementInWords(tick);
  const items = [...releasesIn(tick).map(releaseInWords), ...eventsInWords(tick), ...changesInWords(tick)];
  if (items.length > 0) parts.push(element("ul", "events", ...items.map((text) => element("li", "", text))));
  return parts;
}

function idleInWords(tick) {
  const [from, to] = idleStretch(tick);
  const sentence = `No task has a job: idle from tick ${from} to ${to - 1}, ${to - from} in all.`;
  return [element("p", "statement", "idle"), element("p", "sentence", sentence)];
}

function statementInWords(tick) {
  const { kind, sentence } = statementOf(tick), task = taskOf(tick), [start, end] = run.bodies[task];
  const command = run.command[tick];
  return [
    element("p", "statement", swatch(run.kinds[kind]), summary(tick)),
    element("p", "sentence", sentence),
    element("p", "command", `Command ${command - start + 1} of ${end - start} of the task: ${run.commands[command]}`),
  ];
}

// The tick in one line.
function summary(tick) {
  if (isIdle(tick)) return "idle";
  const subject = subjectOf(tick);
  return `${run.tasks[taskOf(tick)]}: ${statementOf(tick).word}${subject ? ` ${subject.name}` : ""}`;
}

function releaseInWords({ task, fate }) { return `before it ${run.tasks[task]} ${FATES[fate]}`; }

function eventsInWords(tick) {
  const events = run.events[tick], found = [];
  if (events & ANSWERS_YES) found.push("commit: yes");
  if (events & ANSWERS_NO) found.push("commit: no");
  if (events & LOST_STALE) found.push("the attempt is lost: a stale version; the transaction restarts");
  if (events & LOST_REJECTED) found.push("the attempt is lost: a rejected commit; the transaction restarts");
  if (events & ENDS_JOB) found.push(statementOf(tick).word === "spent" ? "the job ends as spent" : "the job ends");
  const preempted = run.tasks.filter((_, task) => run.preempted[tick] >> task & 1);
  if (preempted.length > 0) found.push(`with an unfinished job below it: ${preempted.join(", ")}`);
  const waiting = Array.from(waitingAfter(tick), (count, task) => [count, run.tasks[task]]).filter(([count]) => count > 0);
  if (waiting.length > 0) found.push(`releases that wait: ${waiting.map(([count, name]) => `${count} for ${name}`).join(", ")}`);
  return found;
}

function changesInWords(tick) {
  const changes = changesIn(tick);
  const own = changes.map((change) => `${placeName(change.place)}: ${change.old} → ${change.new}`);
  if (own.length === 0 && !isIdle(tick)) own.push("no current value and no register changes");
  return own;
}

// The exchange that a tick is part of: its ticks, its answer, and why it took as many ticks.
function exchangeInWords(tick) {
  const found = exchangeOf(tick);
  if (found === null) return [];
  const ended = found.last !== NOT_ENDED, answer = ANSWERS[found.answer];
  const words = counted(found.words, run.commands[run.command[tick]] === "COMMIT" ? "bank word" : "word");
  const ticks = `from tick ${found.first}${ended ? ` to ${found.last}` : ""}`;
  const outcome = ended ? answer : `${answer === null ? "" : `${answer}, then `}cut off by the limit`;
  return [
    element("h3", "", `Exchange of ${run.tasks[found.task]} ${ticks}, ${words}: ${outcome}`),
    element("p", "", ...(ended ? sumInWords(found) : countsInWords(found))),
  ];
}

// An exchange that ended took exactly this sum.
function sumInWords(found) {
  const sum = COUNTED.reduce((ticks, [name, cost]) => ticks + cost * found[name], EXCHANGE_TICKS);
  const start = [`${sum === found.own ? "=" : "≠"} ${EXCHANGE_TICKS}`, "Start, the last Test and Commit"];
  const parts = COUNTED.map(([name, cost, what]) => [`+ ${cost === 1 ? "" : `${cost} × `}${found[name]} ${name}`, what]);
  return [`${counted(found.own, "tick")} of its own`, ...[start, ...parts].flatMap(partInWords)];
}

// One that the limit cut off has come so far.
function countsInWords(found) {
  const comma = (index) => (index < COUNTED.length - 1 ? "," : "");
  const parts = COUNTED.map(([name, , what], index) => [`${found[name]} ${name}${comma(index)}`, what]);
  return [`${counted(found.own, "tick")} of its own so far:`, ...parts.flatMap(partInWords)];
}

// Kept in one line; its title says what it counts.
function partInWords([text, what]) {
  const part = element("span", "part", text);
  part.title = what;
  return [" ", part];
}

function counted(number, thing) { return `${number} ${thing}${number === 1 ? "" : "s"}`; }

// The values after a tick; without a tick those at the start.
function whatHolds(tick) {
  const after = tick === null ? 0 : tick + 1;
  const changed = new Set(tick === null ? [] : changesIn(tick).map((change) => change.place));
  const number = (place) => {
    const box = element("span", changed.has(place) ? "changed" : "", String(valueBefore(place, after)));
    box.dataset.place = place;
    return box;
  };
  const parts = [];
  const add = (title, ...content) => parts.push(element("h3", "", title), ...content);
  const when = tick === null ? "at the start" : `after tick ${tick}`;
  if (run.words.length > 0) {
    add(`Words ${when}`, element("div", "grid", ...run.words.map((name, word) => pair(name, number(word)))));
  }
  if (run.blocks.length > 0) add(`Blocks ${when}`, ...run.blocks.map((name, block) => blockLine(name, block, number)));
  if (tick !== null && !isIdle(tick)) add(`Registers of ${run.tasks[taskOf(tick)]} ${when}`, registerGrid(taskOf(tick), number));
  return parts;
}

function pair(name, value) {
  const label = element("span", "", name);
  label.title = name;
  return element("div", "pair", label, value);
}

function registerGrid(task, number) {
  const first = run.firstRegisterPlace + task * REGISTERS;
  const registers = Array.from({ length: REGISTERS }, (_, register) => pair(`r${register}`, number(first + register)));
  return element("div", "grid", ...registers);
}

function blockLine(name, block, number) {
  const first = run.firstBlockPlace + block * BLOCK_NUMBERS;
  const made = element("p", "block", element("span", "name", name), " version ", number(first), ":");
  for (let offset = 1; offset < BLOCK_NUMBERS; offset++) made.append(" ", number(first + offset));
  return made;
}

// Words and blocks that keep their start values have no row in the chart.
function tellUnchanged() {
  const unchanged = run.series.filter((series) => series.ticks.length === 0);
  if (unchanged.length === 0) return;
  const items = unchanged.map((series) => `${series.name}: ${valueText(series, 0)}`);
  document.getElementById("unchanged").append(element("p", "", `Unchanged: ${items.join(", ")}.`));
}
