// The run: what the page's data says of each tick. tools/src/page/data.rs writes it.

const REGISTERS = 8;
const BLOCK_VALUES = 8;
const BLOCK_NUMBERS = 1 + BLOCK_VALUES;

// The bits of a tick's run byte above the task's number, as data.rs has them.
const TASK_BITS = 7;
const ENDS_JOB = 1 << 3;
const ANSWERS_YES = 1 << 4;
const ANSWERS_NO = 1 << 5;
const LOST_STALE = 1 << 6;
const LOST_REJECTED = 1 << 7;

// What becomes of a release.
const STARTS = 0;
const WAITS = 1;
const STARTS_AFTER_WAITING = 2;
const DROPPED = 3;

// The last tick of an exchange that the limit cut off, above every tick; and what Commit has answered.
const NOT_ENDED = 65535;
const ANSWERS = [null, "no", "yes"];

const run = readRun(JSON.parse(document.getElementById("run").textContent));

function readRun(data) {
  const each = data.each;
  const read = {
    ...data,
    // One byte for each tick: statement + 1 (0 is idle), task and events, subject, preempted tasks; two for the command.
    statement: bytesOf(each.statement),
    events: bytesOf(each.run),
    subject: bytesOf(each.subject),
    preempted: bytesOf(each.preempted),
    command: numbersOf(each.command, 2, Uint16Array),
    releases: {
      tick: numbersOf(data.releases.tick, 2, Uint16Array),
      task: bytesOf(data.releases.task),
      fate: bytesOf(data.releases.fate),
    },
    changes: {
      tick: numbersOf(data.changes.tick, 2, Uint16Array),
      place: bytesOf(data.changes.place),
      value: numbersOf(data.changes.value, 4, Uint32Array),
    },
    exchanges: readExchanges(data.exchanges),
  };
  read.firstBlockPlace = data.words.length;
  read.firstRegisterPlace = data.words.length + data.blocks.length * BLOCK_NUMBERS;
  read.places = read.firstRegisterPlace + data.tasks.length * REGISTERS;
  read.changesOfPlace = grouped(read.changes.place, read.places);
  read.exchangesOfTask = grouped(read.exchanges.task, data.tasks.length);
  read.series = changingSeries(read);
  return read;
}

// Two bytes for the first and the last tick of an exchange, one for each of the other numbers.
function readExchanges(lists) {
  const isTick = (name) => name === "first" || name === "last";
  const read = ([name, list]) => [name, isTick(name) ? numbersOf(list, 2, Uint16Array) : bytesOf(list)];
  return Object.fromEntries(Object.entries(lists).map(read));
}

function bytesOf(base64) {
  const text = atob(base64);
  const bytes = new Uint8Array(text.length);
  for (let index = 0; index < text.length; index++) bytes[index] = text.charCodeAt(index);
  return bytes;
}

// Numbers of some bytes each, the lowest byte first whatever the machine's own order is.
function numbersOf(base64, width, Kind) {
  const bytes = bytesOf(base64);
  const numbers = new Kind(bytes.length / width);
  for (let index = 0; index < numbers.length; index++) {
    let number = 0;
    for (let byte = width - 1; byte >= 0; byte--) number = number * 256 + bytes[index * width + byte];
    numbers[index] = number;
  }
  return numbers;
}

// For each place which of the changes are its own, or for each task which of the exchanges, in the order of ticks.
function grouped(owners, number) {
  const counts = new Uint32Array(number);
  for (const one of owners) counts[one]++;
  const lists = Array.from(counts, (count) => new Uint32Array(count));
  counts.fill(0);
  owners.forEach((one, index) => { lists[one][counts[one]++] = index; });
  return lists;
}

// The words and blocks that change, each with the ticks in which it does.
function changingSeries(read) {
  const series = [];
  const ticksOf = (places) => {
    const ticks = new Set();
    for (const place of places) for (const index of read.changesOfPlace[place]) ticks.add(read.changes.tick[index]);
    return Uint16Array.from(ticks).sort();
  };
  read.words.forEach((name, word) => series.push({ name, place: word, isBlock: false, ticks: ticksOf([word]) }));
  read.blocks.forEach((name, block) => {
    const place = read.firstBlockPlace + block * BLOCK_NUMBERS;
    const places = Array.from({ length: BLOCK_NUMBERS }, (_, offset) => place + offset);
    series.push({ name, place, isBlock: true, ticks: ticksOf(places) });
  });
  return series;
}

// How many of the rising numbers are below the bound.
function countBelow(numbers, bound) {
  let low = 0, high = numbers.length;
  while (low < high) {
    const middle = (low + high) >> 1;
    if (numbers[middle] < bound) low = middle + 1; else high = middle;
  }
  return low;
}

// Of those listed, in the order of their ticks, the last one before a tick, or nothing.
function lastBefore(own, ticks, tick) {
  let low = 0, high = own.length;
  while (low < high) {
    const middle = (low + high) >> 1;
    if (ticks[own[middle]] < tick) low = middle + 1; else high = middle;
  }
  return own[low - 1];
}

// The number at a place before a tick: that of its last earlier change, or the one it started with.
function valueBefore(place, tick) {
  const change = lastBefore(run.changesOfPlace[place], run.changes.tick, tick);
  if (change !== undefined) return run.changes.value[change];
  return place < run.firstRegisterPlace ? run.start[place] : 0;
}

// The exchange that a tick is part of: the last one that its task has begun, unless that has ended. Until then a task does
// nothing else.
function exchangeOf(tick) {
  if (isIdle(tick)) return null;
  const found = lastBefore(run.exchangesOfTask[taskOf(tick)], run.exchanges.first, tick + 1);
  if (found === undefined || tick > run.exchanges.last[found]) return null;
  return Object.fromEntries(Object.entries(run.exchanges).map(([name, list]) => [name, list[found]]));
}

// The changes of one tick: place, old and new.
function changesIn(tick) {
  const { tick: ticks, place, value } = run.changes;
  const found = [];
  for (let index = countBelow(ticks, tick); index < ticks.length && ticks[index] === tick; index++) {
    found.push({ place: place[index], old: valueBefore(place[index], tick), new: value[index] });
  }
  return found;
}

// The releases of one tick: task and fate.
function releasesIn(tick) {
  const { tick: ticks, task, fate } = run.releases;
  const found = [];
  for (let index = countBelow(ticks, tick); index < ticks.length && ticks[index] === tick; index++) {
    found.push({ task: task[index], fate: fate[index] });
  }
  return found;
}

// How many releases wait for each task after a tick.
function waitingAfter(tick) {
  const { tick: ticks, task, fate } = run.releases;
  const waiting = new Uint8Array(run.tasks.length);
  for (let index = 0; index < ticks.length && ticks[index] <= tick; index++) {
    if (fate[index] === WAITS) waiting[task[index]]++;
    if (fate[index] === STARTS_AFTER_WAITING) waiting[task[index]]--;
  }
  return waiting;
}

function isIdle(tick) { return run.statement[tick] === 0; }
function taskOf(tick) { return run.events[tick] & TASK_BITS; }
function statementOf(tick) {
  const [word, kind, sentence] = run.statements[run.statement[tick] - 1];
  return { word, kind, sentence };
}

// The word, block or task that a statement is about: its number as sheets write it (w0), and with its name.
function subjectOf(tick) {
  const byte = run.subject[tick], number = byte & 31;
  switch (byte >> 5) {
    case 1: return { short: `w${number}`, name: run.words[number] };
    case 2: return { short: `b${number}`, name: run.blocks[number] };
    case 3: return { short: `t${number}`, name: run.tasks[number] };
    default: return null;
  }
}

// A place in words: a word, a block's version or value, a register.
function placeName(place) {
  if (place < run.firstBlockPlace) return run.words[place];
  if (place < run.firstRegisterPlace) {
    const number = place - run.firstBlockPlace;
    const block = run.blocks[Math.floor(number / BLOCK_NUMBERS)], offset = number % BLOCK_NUMBERS;
    return offset === 0 ? `${block}: version` : `${block}: value at ${offset - 1}`;
  }
  const number = place - run.firstRegisterPlace;
  return `${run.tasks[Math.floor(number / REGISTERS)]}: r${number % REGISTERS}`;
}

// Counts for bins of `size` ticks from `first` on, so that a drawing costs as much as it has pixels: for each bin and task
// the ticks by kind of statement and those in which its job is preempted, and for each bin the idle ticks.
function binned(first, last, size) {
  const bins = Math.max(0, Math.ceil((last - first) / size)), tasks = run.tasks.length, kinds = run.kinds.length;
  const ran = new Uint16Array(bins * tasks * kinds);
  const preempted = new Uint16Array(bins * tasks), idle = new Uint16Array(bins);
  const kindOf = run.statements.map((statement) => statement[1]);
  for (let tick = first; tick < last; tick++) {
    const bin = Math.floor((tick - first) / size);
    if (isIdle(tick)) { idle[bin]++; continue; }
    ran[(bin * tasks + taskOf(tick)) * kinds + kindOf[run.statement[tick] - 1]]++;
    for (let bits = run.preempted[tick]; bits !== 0; bits &= bits - 1) {
      const lowest = 31 - Math.clz32(bits & -bits);
      preempted[bin * tasks + lowest]++;
    }
  }
  return { first, last, size, bins, ran, preempted, idle };
}
