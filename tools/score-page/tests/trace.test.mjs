// The trace: that each event has the form which the trace event format gives its phase, and that each step is there once.

import assert from 'node:assert/strict';
import {test} from 'node:test';

import {read_run} from '../check.mjs';
import {trace_of} from '../trace.mjs';

import {example, EXAMPLES, reports_of, second_form} from './cases.mjs';

// What an event of each phase must have, and may have, besides `ph`, `ts`, `pid`, `tid`, `name` and `args`.
const PHASES = {
  X: ['cat', 'dur'],
  C: [],
  i: ['cat', 's'],
  M: []
};
const METADATA = {
  process_name: 'name',
  thread_name: 'name',
  process_sort_index: 'sort_index',
  thread_sort_index: 'sort_index'
};
const is_whole = value => Number.isInteger(value) && value >= 0;

function is_event(event) {
  assert.ok(Object.hasOwn(PHASES, event.ph), `phase ${event.ph}`);
  assert.deepEqual(
      Object.keys(event).sort(), ['args', 'name', 'ph', 'pid', 'tid', 'ts', ...PHASES[event.ph]].sort(),
      JSON.stringify(event));
  assert.ok(typeof event.name === 'string' && event.name !== '');
  assert.ok(['ts', 'pid', 'tid'].every(what => is_whole(event[what])), JSON.stringify(event));
  if (event.ph === 'X') assert.ok(is_whole(event.dur) && event.dur > 0);
  if (event.ph === 'i') assert.equal(event.s, 't');
  if (event.ph === 'C')
    assert.ok(Object.values(event.args).every(Number.isFinite) && Object.keys(event.args).length === 1);
  if (event.ph === 'M') assert.deepEqual(Object.keys(event.args), [METADATA[event.name]]);
}

// The spans of a thread lie in each other or beside each other: only so can they be shown as a stack.
function are_nested(spans) {
  const ends = [];
  for (const {ts, dur} of spans.sort((one, other) => one.ts - other.ts || other.dur - one.dur)) {
    while (ends.length && ends.at(-1) <= ts) ends.pop();
    if (ends.length) assert.ok(ts + dur <= ends.at(-1), `${ts} to ${ts + dur} in ${ends}`);
    ends.push(ts + dur);
  }
}

test('each report has a trace in the form of the format, with each step once', () => {
  for (const {name, report, script} of [...reports_of(EXAMPLES), ...reports_of('races'), second_form()])
    for (const text of [script, '']) {
      const run = read_run(report, text), trace = JSON.parse(trace_of(name, run)), {traceEvents: events} = trace;
      assert.deepEqual(Object.keys(trace), ['traceEvents', 'displayTimeUnit', 'otherData']);
      assert.ok(['ms', 'ns'].includes(trace.displayTimeUnit));
      events.forEach(is_event);
      const threads = new Map(), names = new Set();
      for (const {ph, name: what, pid, tid} of events)
        if (ph === 'M' && what === 'thread_name') {
          assert.ok(!names.has(`${pid} ${tid}`), 'a thread is named once');
          names.add(`${pid} ${tid}`);
        }
      for (const event of events.filter(one => one.ph === 'X')) {
        const thread = `${event.pid} ${event.tid}`;
        assert.ok(names.has(thread), 'a thread has a name');
        threads.set(thread, [...(threads.get(thread) ?? []), event]);
      }
      for (const spans of threads.values()) are_nested(spans);
      const steps = events.filter(event => event.cat?.startsWith('step '));
      assert.deepEqual(steps.map(step => [step.ts, step.name]), run.row.map(step => [step.at, run.words.step(step)]));
    }
});

test('workers, lists and bits have their names and spans', () => {
  const {script, report} = example('container-leaves'),
                 lost = report.replace('bit 0 1 0000000000000003', 'bit 0 1 0000000000000002');
  const {traceEvents: events} = JSON.parse(trace_of('x', read_run(lost, script)));
  const of = (ph, name) => events.filter(event => event.ph === ph && event.name === name);
  const named = label => of('M', 'thread_name').find(event => event.args.name === label);
  const list = named('/host · dentry');
  assert.ok(list && named('worker 2') && named('inode (id 1)'));
  assert.deepEqual(of('X', 'bit lost').map(({pid, tid}) => [pid, tid]), [[list.pid, list.tid]]);
  assert.equal(of('X', 'offline /host/box').length, 1);
  assert.ok(of('C', 'usage of /host').some(event => event.args.objects === 6));
});
