// Reports that no run writes: each is refused, in words that name the steps or the answers; and the search for an order of
// deferred work, against one that tries all.

import assert from 'node:assert/strict';
import {existsSync, readdirSync, readFileSync} from 'node:fs';
import {test} from 'node:test';

import {read_run} from '../check.mjs';
import {order_deferred} from '../deferred.mjs';
import {Graph, order} from '../order.mjs';

import {chance} from './many.mjs';

const here = new URL('./impossible/', import.meta.url),
      suite = new URL('../../../suite/', import.meta.url);

const CYCLE = /There is no order of these steps\. The shortest cycle:/;
const SAID = {
  sweep_misses_a_put: [CYCLE, /a sweep begins when all workers are done/, /lookup 0\): held, and the list was empty/],
  sweep_walks_online_after_offline:
      [CYCLE, /worker 0, command 0: finds the group \/a online/, /\/a begins to go offline/],
  sweep_finds_an_unregistered_cache:
      [CYCLE, /worker 1, command 0: waits until nobody holds the id 0/, /the sweep begins/],
  swept_though_memory_cut_a_walk:
      [/worker 0, command 0 answers `swept 2 0` \(line 7\), though memory cut its walk 1 short/],
  put_into_a_group_never_made: [/answers `added 0 0 1 0` \(line 8\), and the group \/c was never made/],
  put_before_its_own_mkgroup: [CYCLE, /finds the group \/c online/, /the group \/c is made/],
  already_made_before_made: [CYCLE, /finds entry 0 in the journal of groups: \/c is made/],
  made_entries_fall: [CYCLE, /the group \/c is made \(journal of groups, entry 1\)/, /order of the journal/],
  grab_before_its_own_balance: [CYCLE, /grabs a unit: entry 1 of the pool buf/, /reclaims 9 of 20 units/],
  counted_behind_a_later_grab: [CYCLE, /counts the pool buf on node 0 after 2 entries/],
  pool_took_more_than_was_deferred: [
    /no order of the takes and gives of deferred work at the pool buf on node 0/,
    /0 of 4 steps are done, and 0 is deferred/, /worker 0, command 1: takes the deferred work of 5/
  ],
  pools_in_a_circle: [CYCLE, /entry 1 of the pool two on node 0/, /entry 0 of the pool one on node 0/],
  isolated_after_its_own_offline: [CYCLE, /finds the group \/a online/, /\/a begins to go offline/],
  list_took_more_than_was_deferred: [
    /deferred work at the list of \/a, node 0, id 0/, /worker 0, command 6: takes the deferred work of 5/,
    /worker 0, command 7: defers work of 5 .*\n.*worker 0 takes them in this order/
  ],
  registered_twice: [/worker 1, command 0 answers `registered 0 0` \(line 7\), and worker 0, command 0 answers/],
  unregistered_twice: [/answers `freed 0 1 0 0 0` \(line 9\)/, /entry 1 of the journal of registrations/],
  carried_by_a_later_command:
      [/worker 0, command 3: takes no deferred work at the list of \/a/, /2 of 4 steps are done, and 4/],
};

test('each impossible report has its words', () => {
  const names = readdirSync(here).map(name => name.replace('.input', ''));
  assert.deepEqual(names.sort(), Object.keys(SAID).sort());
});

for (const [name, wanted] of Object.entries(SAID))
  test(`refused: ${name.replaceAll('_', ' ')}`, () => {
    const text = readFileSync(new URL(`${name}.input`, here), 'latin1'), end = text.indexOf('\nend\n') + 5;
    const run = read_run(text.slice(end), text.slice(0, end));
    const said = run.error ?? run.faults.map(fault => fault.words).join('\n');
    assert.notEqual(said, '');
    for (const words of wanted) assert.match(said, words);
  });

test('an entry that isn\'t there, or is of another command, is no entry to cite', () => {
  const {script, report} = pair('first');
  for (const [old, text, said] of [
           ['added 0 0 1 0', 'added 0 0 1 7', /entry 7 of the list of \/a, node 0, id 0 isn't there/],
           ['add 0 0 1 k1', 'add 0 1 1 k1', /worker 0, command 1 made entry 0/]]) {
    assert.ok(report.includes(old));
    const run = read_run(report.replace(old, text), script);
    assert.match(run.faults?.map(fault => fault.words).join('\n') ?? run.error, said);
  }
});

const pair = name => ({
  script: readFileSync(new URL(`../../../examples/${name}.script`, import.meta.url), 'latin1'),
  report: readFileSync(new URL(`../../../examples/${name}.report`, import.meta.url), 'latin1')
});

test('each report of the suite has an order and no fault', {skip: !existsSync(suite)}, () => {
  let count = 0;
  for (const name of readdirSync(suite).filter(one => one.endsWith('.report'))) {
    const text = readFileSync(new URL(name, suite), 'latin1'),
          script = new URL(name.replace(/report$/, 'script'), suite);
    // Some cases have a verdict there, and no report.
    if (!text.startsWith('report ')) continue;
    const run = read_run(text, existsSync(script) ? readFileSync(script, 'latin1') : '');
    assert.equal(run.error, undefined, name);
    assert.deepEqual([run.faults, run.open], [[], 0], name);
    count += 1;
  }
  assert.ok(count > 50, `${count} reports`);
});

// Whether an order of the takes and gives of one place is there, by trying all.
function has_order(rows, left, value = 0n) {
  if (rows.every(row => !row.length)) return value === left;
  return rows.some((row, at) => {
    if (!row.length || (row[0].takes && row[0].amount !== value)) return false;
    const rest = rows.map((one, which) => (which === at ? one.slice(1) : one));
    return has_order(rest, left, row[0].takes ? 0n : value + row[0].amount);
  });
}

// Takes and gives of some workers as one run makes them, put down worker by worker; some with one amount changed.
function place_of(draw) {
  const rows = Array.from({length: 1 + draw(3)}, () => []);
  let value = 0n;
  for (let turn = 2 + draw(8); turn > 0; turn--) {
    const worker = draw(rows.length), takes = draw(2) === 0, amount = takes ? value : BigInt(1 + draw(3));
    rows[worker].push({on: takes ? 'take' : 'give', takes, amount, list: '0 0 1', worker, command: 0});
    value = takes ? 0n : value + amount;
  }
  if (draw(2)) {
    const row = rows[draw(rows.length)], step = row[draw(row.length || 1)];
    if (step) step.amount = BigInt(draw(4));
  }
  return {rows, left: value};
}

test('an order of deferred work is found exactly where trying all finds one', () => {
  const draw = chance(11);
  let none = 0, some = 0;
  for (let turn = 0; turn < 1500; turn++) {
    const {rows, left} = place_of(draw), graph = new Graph();
    for (const row of rows) row.forEach((step, at) => graph.before(row[at - 1], graph.add(step), 'own'));
    const run = {graph, deferred: new Map([['0 0 1', rows.flat()]]), left: new Map([['0 0 1', left]])};
    const found = order_deferred(run, order(graph).row), wanted = has_order(rows, left);
    assert.equal(found.stuck === undefined, wanted);
    if (!wanted) {
      none += 1;
      assert.ok(found.stuck.done <= rows.flat().length);
      continue;
    }
    some += 1;
    let value = 0n;
    for (const step of found.chains[0]) {
      if (step.takes) assert.equal(step.amount, value);
      value = step.takes ? 0n : value + step.amount;
    }
    assert.equal(value, left);
    assert.equal(found.chains[0].length, rows.flat().length);
  }
  assert.ok(none > 200 && some > 200, `${none} without, ${some} with`);
});
