// A run in the trace event format, as Perfetto and chrome://tracing open it. The time of a step is its number in the order.

import {BITS} from './look.mjs';
import {command_name, rows_of} from './rows.mjs';

// The processes of the trace: what the rows of the page are about.
const WORKERS = 1, GROUPS = 2, CACHES = 3, LISTS = 4, POOLS = 5, NOBODY = 1000;
const PROCESSES = {
  [WORKERS]: 'workers',
  [GROUPS]: 'groups',
  [CACHES]: 'caches',
  [LISTS]: 'lists',
  [POOLS]: 'pools'
};

/** The text of a trace: the name of the report, and its run. */
export function trace_of(name, run) {
  const {rows, commands} = rows_of(run), events = [], named = new Set();
  const add = event => {
    if (!named.has(event.pid)) {
      named.add(event.pid);
      events.push(
          meta('process_name', event.pid, 0, {name: PROCESSES[event.pid]}),
          meta('process_sort_index', event.pid, 0, {sort_index: event.pid}));
    }
    events.push(event);
  };
  const thread = (pid, tid, label) => {
    add(meta('thread_name', pid, tid, {name: label}));
    add(meta('thread_sort_index', pid, tid, {sort_index: tid}));
  };
  worker_events(run, commands, add, thread);
  const shown = rows.flatMap(row => (row.kind === 'fold' ? row.hidden : [row])), count = {};
  for (const row of shown) {
    const events_of = {usage: group_events, id: cache_events, list: list_events, units: pool_events}[row.kind];
    count[row.kind] = (count[row.kind] ?? 0) + 1;
    events_of?.(run, row, count[row.kind], add, thread);
  }
  const other = {
    report: name,
    steps: run.row.length,
    note: 'ts is the number of a step in one possible order, and no time'
  };
  const lines = events.map(event => JSON.stringify(event, plain));
  return `{"traceEvents":[\n${lines.join(',\n')}\n],"displayTimeUnit":"ns","otherData":${JSON.stringify(other)}}\n`;
}

// Amounts of 64 bits are no numbers of JSON.
const plain = (_, value) => (typeof value === 'bigint' ? String(value) : value);

const meta = (name, pid, tid, args) => ({name, ph: 'M', ts: 0, pid, tid, args});

const span = (pid, tid, name, cat, from, to, args = {}) =>
    ({name, cat, ph: 'X', ts: from, dur: to - from, pid, tid, args});

// How far a row that changes by steps has come: a counter.
function counter(pid, tid, name, row, what, add) {
  add({name, ph: 'C', ts: 0, pid, tid, args: {[what]: 0}});
  row.at.forEach((at, place) => add({name, ph: 'C', ts: at, pid, tid, args: {[what]: row.value[place]}}));
}

// Each command with its steps in it, and the steps that no one command takes.
function worker_events(run, commands, add, thread) {
  const workers = new Set();
  for (const command of commands.values()) {
    const tid = command.worker + 1;
    if (!workers.has(tid)) thread(WORKERS, tid, `worker ${command.worker}`);
    workers.add(tid);
    const args = {command: command.number, answer: command.answer.join(' ')};
    add(span(WORKERS, tid, command.text || args.answer, 'command', command.from, command.to + 1, args));
  }
  for (const step of run.row) {
    const is_own = commands.has(command_name(step.worker, step.command)), tid = is_own ? step.worker + 1 : NOBODY;
    if (!workers.has(tid)) thread(WORKERS, tid, 'no one command');
    workers.add(tid);
    add(span(WORKERS, tid, run.words.step(step), `step ${step.on}`, step.at, step.at + 1, told(step)));
  }
}

// What a step tells of, without where it stands in the graph.
function told(step) {
  const {index, at, own, wait, last, text, ...args} = step;
  return Object.fromEntries(
      Object.entries(args).filter(([, value]) => ['string', 'number', 'boolean', 'bigint'].includes(typeof value)));
}

function group_events(run, row, tid, add, thread) {
  thread(GROUPS, tid, row.label);
  counter(GROUPS, tid, `usage of ${row.label}`, row, 'objects', add);
  const end = run.row.length, stage = (name, from, to) => {
    if (from !== null && to > from) add(span(GROUPS, tid, name, 'group', from, to));
  };
  if (row.made !== null) stage('not made', 0, Math.min(row.made, end));
  stage('going offline', row.begin, row.done ?? end);
  stage('offline', row.done, end);
}

function cache_events(run, row, tid, add, thread) {
  thread(CACHES, tid, row.label);
  for (const {from, to, cache, dying} of row.spans)
    add(span(CACHES, tid, dying ? `${cache}, dying` : cache, 'registration', from, to, {id: row.id}));
}

function list_events(run, row, tid, add, thread) {
  thread(LISTS, tid, row.label);
  counter(LISTS, tid, `objects of ${row.label}`, row, 'objects', add);
  for (const {from, to, state} of row.bit ?? [])
    if (state !== 'clear') add(span(LISTS, tid, BITS[state], 'bit', from, to));
  for (const step of row.entries)
    add({
      name: run.words.step(step),
      cat: 'entry',
      ph: 'i',
      s: 't',
      ts: step.at,
      pid: LISTS,
      tid,
      args: {entry: step.entry}
    });
}

function pool_events(run, row, tid, add, thread) {
  thread(POOLS, tid, row.label);
  counter(POOLS, tid, `free units of ${row.label}`, row, 'units', add);
}
