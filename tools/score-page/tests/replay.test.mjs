// What lists held: by the items that reports print, and by the rules of a scan.

import assert from 'node:assert/strict';
import {test} from 'node:test';
import {read_report} from '../reading.mjs';
import {read_run} from '../check.mjs';
import {fates, place_name, play} from '../replay.mjs';
import {EXAMPLES, example, reports_of, second_form} from './cases.mjs';
import {many} from './many.mjs';

const item = ({birth, key, value, marked, pinned, worker, command}) =>
    ({birth, key, value, marked, pinned, worker, command});

function ends_as_printed(report) {
  const played = play(report);
  for (const list of report.lists) {
    const {lengths, takes, items_after} = played.get(place_name(list.id, list.node, list.group));
    assert.deepEqual(items_after(list.entries.length).map(item), list.items.map(item));
    list.entries.forEach((entry, at) => {
      assert.equal(items_after(at + 1).length, lengths[at + 1]);
      if (entry.kind === 'scan') assert.equal((takes.get(at) ?? []).length, entry.freed);
      if (entry.kind === 'drained') assert.equal((takes.get(at) ?? []).length, entry.objects);
    });
  }
}

test('each list ends with the items that its report prints, and each scan freed what it says', () => {
  for (const {report} of [...reports_of(EXAMPLES), ...reports_of('races'), second_form()])
    ends_as_printed(read_report(report));
});

test('a list of many entries is replayed from any of them', () => {
  const report = read_report(many(4, 400, 1).report), [list] = report.lists,
        {lengths, items_after} = play(report).get('0 0 1');
  assert.ok(list.entries.length > 1000);
  for (const count of [0, 1, 255, 256, 257, 511, 512, 777, list.entries.length])
    assert.equal(items_after(count).length, lengths[count]);
  assert.deepEqual(items_after(list.entries.length).map(item), list.items.map(item));
});

// A list of objects that are put and looked at or pinned, and then scanned.
function scanned(policy, asked, ...objects) {
  const entries = [];
  for (const object of objects) {
    const by = {worker: 0, command: 0, birth: 1, key: object[0]};
    entries.push({kind: 'add', ...by, value: '=', out: 'added'});
    if (object.includes('marked')) entries.push({kind: 'look', ...by, out: 'hit'});
    if (object.includes('pinned')) entries.push({kind: 'pin', ...by, out: 'done'});
  }
  entries.push({kind: 'scan', worker: 0, policy, asked});
  const {takes, items_after} = play({lists: [{id: 0, node: 0, group: 1, entries}]}).get('0 0 1');
  return [
    (takes.get(entries.length - 1) ?? []).length,
    items_after(entries.length).map(one => `${one.key}${one.marked ? ' marked' : ''}`)
  ];
}

test('a scan goes by its policy', () => {
  assert.deepEqual(scanned('plain', 2, ['A', 'pinned'], ['B'], ['C']), [2, ['C']]);
  assert.deepEqual(scanned('clock', 4, ['A', 'marked'], ['B', 'marked']), [2, []]);
  assert.deepEqual(scanned('clock', 3, ['A', 'marked'], ['B', 'marked']), [1, ['B']]);
  assert.deepEqual(scanned('clock', 4, ['A', 'marked']), [0, ['A']]);
  assert.deepEqual(scanned('clock', 3, ['A', 'pinned'], ['B', 'marked'], ['C']), [1, ['A', 'B']]);
  assert.deepEqual(scanned('halt', 3, ['A'], ['B', 'pinned'], ['C']), [1, ['B', 'C']]);
  assert.deepEqual(scanned('halt', 0, ['A']), [0, ['A']]);
});

test('what a list hands over stands before what its parent\'s has', () => {
  const add = (birth, key) => ({kind: 'add', worker: 0, command: 0, birth, key, value: '=', out: 'added'});
  const lists = [
    {id: 0, node: 0, group: 1, entries: [add(1, 'p'), {kind: 'moved', child: 2, objects: 2}]},
    {id: 0, node: 0, group: 2, entries: [add(2, 'x'), add(2, 'y'), {kind: 'closed'}]}
  ];
  const played = play({lists});
  assert.deepEqual(played.get('0 0 1').items_after(2).map(({key}) => key), ['x', 'y', 'p']);
  assert.deepEqual(played.get('0 0 1').items_after(1).map(({key}) => key), ['p']);
  assert.deepEqual([...played.get('0 0 2').lengths], [0, 1, 2, 0]);
  assert.ok(played.get('0 0 2').fills.has(0) && !played.get('0 0 2').fills.has(1));
});

test('what became of each object is told', () => {
  const run = read_run(example('offline').report),
        told = [...fates(run)].map(([serial, steps]) => [serial, ...steps.map(({kind, list}) => `${kind} ${list}`)]);
  assert.deepEqual(told.sort(), [['0.0', 'moved 0 0 1', 'scan 0 0 1'], ['1.1', 'scan 0 0 1']]);
  const [race] = reports_of('races');
  assert.deepEqual(fates(read_run(race.report)).get('6.24').map(({kind, list}) => `${kind} ${list}`), ['moved 0 0 0']);
});
