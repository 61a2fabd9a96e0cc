// One order of all steps where there is one, and else the shortest cycle.

import assert from 'node:assert/strict';
import {test} from 'node:test';

import {read_run} from '../check.mjs';
import {Graph, order, shortest_cycle} from '../order.mjs';
import {read_report} from '../reading.mjs';
import {steps_of} from '../steps.mjs';

import {EXAMPLES, reports_of, second_form} from './cases.mjs';
import {chance, many} from './many.mjs';

// What the order must agree with, told again without the graph: each journal, each count, each lookup, each worker.
function agrees(run) {
  const rises = (steps, what) =>
      steps.forEach((step, at) => assert.ok(at === 0 || steps[at - 1].at < step.at, `${what} at ${at}`));
  const on = (kind, name) => run.row.filter(step => step.on === kind && (name === undefined || name(step)));
  rises(on('pool').sort((one, other) => one.entry - other.entry), 'registrations');
  rises(on('tree').sort((one, other) => one.entry - other.entry), 'offlining');
  for (const row of [...run.lists.values(), ...run.units.values()]) rises(row, 'a journal');
  run.report.groups.forEach(
      (_, group) => rises(
          on('use', step => step.group === group).sort((one, other) => one.operation - other.operation), 'a usage'));
  run.report.lookups.forEach(
      (_, id) =>
          rises(on('lookup', step => step.id === id).sort((one, other) => one.number - other.number), 'lookups'));
  for (const step of on('count')) {
    const row = run.lists.get(step.list) ?? [];
    assert.ok((row[step.entries - 1]?.at ?? -1) < step.at && step.at < (row[step.entries]?.at ?? Infinity), 'a count');
  }
  const deferred = new Map();
  for (const step of run.row) {
    if (step.takes === undefined) continue;
    if (step.takes) assert.equal(step.amount, deferred.get(step.list) ?? 0n, 'a take');
    deferred.set(step.list, step.takes ? 0n : (deferred.get(step.list) ?? 0n) + step.amount);
  }
  const last = new Map();
  for (const step of run.row)
    if (step.worker !== undefined) {
      assert.ok(step.command >= (last.get(step.worker) ?? 0), 'a worker goes on');
      last.set(step.worker, step.command);
    }
  assert.deepEqual(run.row.map(step => step.at), run.row.map((_, at) => at));
}

test('each example, a report of eight workers, and one of the second form have an order', () => {
  for (const {name, report, script} of [...reports_of(EXAMPLES), ...reports_of('races'), second_form()])
    for (const with_script of [script, '']) {
      const run = read_run(report, with_script);
      assert.equal(run.error, undefined, name);
      agrees(run);
    }
});

// What each wrong report tells, as the words of its cycle have it.
const CYCLES = {
  found_after_unregistering: [/waits until nobody holds the id 0/, /counts the list of \/a/, /let go/],
  root_found_after_unregistering: [/waits until nobody holds the id 0/, /counts the list of \/, node 0/],
  scanned_after_draining: [/drains 1 object/, /scans with a budget of 2/, /order of the journal/],
  lookups_fall_back: [/\(lookup 1\)/, /\(lookup 0\)/, /lookups of an id are numbered/],
  two_journals_cross: [/adds x of \/a/, /misses x of \/a/],
  uncharged_before_charged: [/uncharges \//, /charges \//, /operations on a usage are numbered/],
  charges_cross: [/operation 0/, /operation 1/],
  walked_online_after_offline: [/finds the group \/a online/, /begins to go offline/],
  climbed_and_came_back: [/list of \/p\/c, node 0, id 0 closed/, /entry 0 of the list of \/p\/c/],
  knew_too_few_registrations: [/sees 2 entries/, /idle again/],
  map_lacks_its_own_bit: [/loads the bits of \/a, node 0, unit 0: none/, /sets the bit/],
};

for (const {name, report} of reports_of('wrong')) {
  test(`no order: ${name.replaceAll('_', ' ')}`, () => {
    const run = read_run(report);
    assert.ok(run.is_cycle);
    assert.match(run.error, /^There is no order of these steps\. The shortest cycle:\n/);
    assert.ok(CYCLES[name], 'a case without its words');
    for (const words of CYCLES[name]) assert.match(run.error, words);
    const told = run.error.split('\n').slice(1);
    assert.equal(told[0], told.at(-1), 'the cycle ends where it begins');
    assert.ok(told.length <= 11);
  });
}

test('reports that other rules refuse have an order all the same', () => {
  for (const {name, report, script} of reports_of('ordered'))
    assert.equal(read_run(report, script).error, undefined, name);
});

test('a report with two entries of a journal exchanged has no order where a worker made both', () => {
  const {report} = reports_of(EXAMPLES).find(({name}) => name === 'tenants');
  const [one, other] = ['add 0 0 1 index =html added\n', 'look 0 2 1 index hit\n'];
  assert.match(read_run(report.replace(one + other, other + one)).error, /worker 0 takes them in this order/);
});

// All cycles of a small graph by trying: the least number of facts, where a chain of one reason counts as one.
function least_facts(graph) {
  const count = graph.steps.length;
  let least = Infinity;
  const chains = {own: true, journal: true, lookup: true, use: true}, edges = [];
  const reasons = [
    'own', 'journal', 'count', 'lookup', 'range', 'seen', 'state', 'use', 'held', 'move', 'shut', 'room', 'bit',
    'sweep', 'defer'
  ];
  for (let e = 0; e < graph.edges; e++) edges.push([graph.from[e], graph.to[e], reasons[graph.why[e]]]);
  const go = (start, at, path, seen) => {
    for (const edge of edges) {
      if (edge[0] !== at) continue;
      const next = [...path, edge[2]];
      if (edge[1] === start) {
        const facts =
            next.filter((why, place) => !(chains[why] && why === next[(place + next.length - 1) % next.length]))
                .length ||
            1;
        least = Math.min(least, facts);
      } else if (!seen.has(edge[1]) && next.length < count)
        go(start, edge[1], next, new Set([...seen, edge[1]]));
    }
  };
  for (let start = 0; start < count; start++) go(start, start, [], new Set([start]));
  return least;
}

test('the shortest cycle is as short as trying all finds it, on small graphs', () => {
  const draw = chance(5);
  let cycles = 0;
  for (let turn = 0; turn < 400; turn++) {
    const graph = new Graph(), count = 3 + draw(5);
    const steps = Array.from({length: count}, (_, at) => graph.add({on: 'word', at, worker: 0, command: 0}));
    for (let edge = 0; edge < count + draw(count); edge++)
      graph.before(steps[draw(count)], steps[draw(count)], ['own', 'journal', 'count', 'bit'][draw(4)]);
    const {row, left} = order(graph);
    const least = least_facts(graph);
    assert.equal(row === null, least < Infinity);
    // No report has a cycle of one chain alone: no worker and no journal is behind itself.
    if (row || least === 1) continue;
    cycles += 1;
    const {facts, is_shortest} = shortest_cycle(graph, left);
    assert.ok(is_shortest);
    assert.equal(facts.length, least);
  }
  assert.ok(cycles > 50);
});

test('400,000 steps of 20,000 commands are in order within five seconds of processor time', context => {
  const {report, script} = many(40, 500, 16), read = read_report(report);
  assert.equal(read.commands.length, 20000);
  const before = process.cpuUsage();
  const {graph} = steps_of(read, null), {row} = order(graph);
  const {user, system} = process.cpuUsage(before), seconds = (user + system) / 1e6;
  context.diagnostic(`${row?.length} steps in ${seconds.toFixed(1)} seconds`);
  assert.ok(row && row.length >= 400000, `${row?.length} steps`);
  assert.ok(seconds < 5, `${seconds} seconds`);
  assert.equal(read_run(report, script).error, undefined);
});
