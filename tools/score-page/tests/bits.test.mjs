// When the bits of lists were set, and which are lost.

import assert from 'node:assert/strict';
import {test} from 'node:test';

import {bit_spans, has_bit, lost_bits} from '../bits.mjs';
import {read_run} from '../check.mjs';
import {read_report} from '../reading.mjs';

import {example, EXAMPLES, reports_of, second_form} from './cases.mjs';

const states = spans => spans.map(({state}) => state).join(' ');

test('a bit is told by its digit and its place in it', () => {
  assert.ok(has_bit('8000000000000000', 63) && has_bit('8000000000000000', 127) && !has_bit('8000000000000000', 62));
  assert.ok(has_bit('0000000000000012', 1) && has_bit('0000000000000012', 68) && !has_bit('0000000000000012', 0));
});

test('the spans of each bit go through the whole run, and end as the report prints it', () => {
  let count = 0;
  for (const {name, report, script} of [...reports_of(EXAMPLES), ...reports_of('races'), second_form()]) {
    const run = read_run(report, script), printed = new Map();
    for (const bits of run.report.bits) printed.set(`${bits.node} ${bits.group} ${bits.unit}`, bits.bits);
    for (const [place, spans] of bit_spans(run)) {
      const [id, node, group] = place.split(' ').map(Number), last = spans.at(-1);
      assert.deepEqual([spans[0].from, last.to], [0, run.row.length], name);
      spans.forEach((span, at) => assert.ok(span.from < span.to && (at === 0 || spans[at - 1].to === span.from), name));
      const is_set = has_bit(printed.get(`${node} ${group} ${id >> 6}`), id);
      assert.ok(last.state === 'unsure' || (last.state === 'set') === is_set, `${name}, ${place}: ${states(spans)}`);
      count += 1;
    }
  }
  assert.ok(count > 20, `${count} bits`);
});

test('a walk clears a bit, and a later put sets it again', () => {
  const report = [
    'report 1',
    'size 1 1',
    'group 0 /',
    'group 1 /a',
    'cache 0 c',
    'pool 0 registered 0 0 0',
    'reply 0 0 added 0 0 1 0',
    'find 0 0 1',
    'reply 0 1 dropped 0 0 1 1',
    'find 0 1 1',
    'reply 0 2 walked 0',
    'walk 0 1 0 0 fs ran 0',
    'map 0 0000000000000001',
    'try 0 2 held cleared 2 2',
    'reply 0 3 added 0 0 1 2',
    'find 0 3 1',
    'list 0 0 1',
    'add 0 0 1 k =v added',
    'drop 0 1 1 k dropped',
    'add 0 3 1 k =v added',
    'item 0 3 1 k =v clean loose',
    'bit 0 1 0000000000000001',
    'use 0 0 + 0 0 0',
    'use 0 1 - 1 0 1',
    'use 0 2 + 0 0 3',
    'use 1 0 + 0 0 0',
    'use 1 1 - 1 0 1',
    'use 1 2 + 0 0 3',
    'lookups 0 4',
    'total 2 1 1 4 1',
    'end',
    ''
  ].join('\n');
  const run = read_run(report);
  assert.deepEqual([run.error, run.faults], [undefined, []]);
  const spans = bit_spans(run).get('0 0 1');
  assert.equal(states(spans), 'clear set clear set');
  assert.equal(spans[2].from, run.row.find(step => step.on === 'clear').at);
});

test('a lost bit is red from when it was last seen, and has its lines', () => {
  const {script, report} = example('container-leaves'),
                 changed = report.replace('bit 0 1 0000000000000003', 'bit 0 1 0000000000000002'),
                 run = read_run(changed, script);
  assert.deepEqual(
      run.lost.map(({place, cache, objects, line, bits}) => [place, cache, objects, line, bits.line]),
      [['0 0 1', 0, 1, 56, 79]]);
  const spans = bit_spans(run).get('0 0 1'), maps = run.row.filter(step => step.on === 'map' && step.group === 1);
  assert.equal(states(spans), 'clear set lost');
  assert.equal(spans[2].from, maps.at(-1).at);
});

test('only lists with objects, below the root, of a cache that is registered at the end lose a bit', () => {
  const lines =
      (id, group,
       end) => ['report 2', 'size 1 128', 'group 0 /', 'group 1 /a', 'cache 0 c', `pool 0 registered 0 ${id} 0`, ...end,
                `list ${id} 0 ${group}`, `add 0 0 ${group} k =v added`, `item 0 0 ${group} k =v clean loose`,
                'bit 0 1 0 0000000000000000', 'bit 0 1 1 0000000000000000',
                ...Array.from({length: 128}, (_, at) => `lookups ${at} 0`), 'total 1 0 1 0 0', 'end', '']
                   .join('\n');
  const lost = text => lost_bits(read_report(text)).map(({place, line, bits}) => [place, line, bits?.line]);
  assert.deepEqual(lost(lines(65, 1, [])), [['65 0 1', 7, 11]]);
  assert.deepEqual(lost(lines(65, 1, []).replace('1 0000000000000000', '1 0000000000000002')), []);
  assert.deepEqual(lost(lines(65, 1, []).replace('bit 0 1 1 0000000000000000\n', '')), [['65 0 1', 7, undefined]]);
  assert.deepEqual(lost(lines(65, 0, [])), []);
  assert.deepEqual(lost(lines(65, 1, ['pool 1 unregistered 0 65 0'])), []);
});
