// What is read, and what is refused, with the line and what was expected there.

import assert from 'node:assert/strict';
import {test} from 'node:test';
import {Refusal} from '../lines.mjs';
import {read_report} from '../reading.mjs';
import {mismatch, read_script} from '../script.mjs';
import {EXAMPLES, example, reports_of, second_form} from './cases.mjs';

const {report: OFFLINE, script: OFFLINE_SCRIPT} = example('offline'), SECOND = second_form();

test('each example is read, with the numbers of its total line', () => {
  const examples = reports_of(EXAMPLES);
  assert.ok(examples.length >= 4);
  for (const {name, report, script} of examples) {
    const read = read_report(report);
    assert.equal(read.commands.length, read.total.replies, name);
    assert.equal(read.commands.reduce((sum, command) => sum + command.walks.length, 0), read.total.walks, name);
    assert.equal(read.lists.reduce((sum, list) => sum + list.items.length, 0), read.total.listed, name);
    assert.equal(mismatch(read_script(script), read), null, name);
  }
});

test('a report and a script of the second form are read with all that they may have', () => {
  const read = read_report(SECOND.report), script = read_script(SECOND.script);
  assert.deepEqual(read.pools, ['buf']);
  assert.deepEqual(read.tree, [{kind: 'made', group: 2}]);
  assert.equal(read.commands[2].plain[0].passes[0].version, 2);
  assert.deepEqual([read.commands[6].isolation.visits, read.commands[6].isolation.end], [2, 'bare']);
  assert.deepEqual([read.lists[0].entries[2].isolated, read.lists[0].entries[2].walk], [true, 0]);
  assert.deepEqual(read.units[0].entries.map(entry => entry.kind), ['release', 'grab', 'reclaim']);
  assert.deepEqual(
      [script.pools[0].flat, script.groups[2].later, script.sweep], [true, true, {priority: 0, kind: 'fs'}]);
  assert.equal(mismatch(script, read), null);
});

test('every answer, every outcome and every entry has a form', () => {
  const head =
      'report 2\nsize 1 1\ngroup 0 /\ngroup 1 /a\ncache 0 c\npool 0 p\npool 0 registered 0 0 0\ntree 0 begin 1\n';
  const tail = 'lookups 0 0\ntotal 0 0 0 1 0\nend\n';
  const answers = [
    'added 0 0 1 0',
    'exists 0 0 1 0',
    'hit 0 0 1 0 =',
    'miss 0 0 1 0',
    'dropped 0 0 1 0',
    'pinned 0 0 1 0',
    'done 0 0 1 0',
    'done 0 18446744073709551615 0',
    'memory',
    'memory 3',
    'offline 0',
    'over 1 54 2',
    'nocache 1',
    'worn lookups 0 7',
    'worn list 0 0 1 7 8',
    'worn charges 7 8',
    'walked 3',
    'alreadydone 0',
    'root',
    'haschildren 1 1',
    'registered 0 0',
    'alreadyregistered 1',
    'noid 1',
    'freed 0 0 0 7 3',
    'half 0 0 0 7 3 memory',
    'half 0 0 0 7 3 worn list 0 0 1 7 8',
    'made 0',
    'alreadymade 0',
    'notmade 1',
    'released 0 0 0',
    'full 0 0 1 20000',
    'grabbed 0 0 0',
    'bare 0 0 0',
    'isolated 3 0 spent',
    'isolated 3 0 worn charges 1 2',
    'swept 2 1'
  ];
  for (const answer of answers)
    assert.deepEqual(read_report(`${head}reply 0 0 ${answer}\n${tail}`).commands[0].answer, answer.split(' '));
  const tries = [
    'try 0 worn 7', 'try 0 1 gone set', 'try 0 1 gone clear', 'try 0 1 gone root', 'try 0 1 held skip 1 2',
    'try 0 1 held ran 2 3 0 1 0 2 1 0 through', 'try 0 1 held ran 2 3 0 1 0 2 1 0 worn charges 1 2',
    'try 0 1 held empty 3', 'try 0 1 held cleared 2 3', 'try 0 1 held restored 2 skip 1 3',
    'try 0 1 held restored 2 ran 2 3 0 1 1 2 1 0 noroom'
  ];
  for (const line of tries)
    assert.equal(
        read_report(`${head}reply 0 0 walked 0\nwalk 0 1 0 12 fs ran 0\nmap 0 0000000000000001\n${line}\n${tail}`)
            .commands[0]
            .walks[0]
            .looks.length,
        2, line);
});

const REFUSED = [
  ['another form', ['report 1', 'report 3'], 1, /`report VERSION` with 1 or 2/],
  ['no report', ['report 1\n', 'rapport 1\n'], 1, /`report 1` or `report 2`/],
  ['more ids than the form has', ['size 1 1', 'size 1 65'], 2, /IDS a number from 1 to 64/],
  ['a number with a leading zero', ['size 1 1', 'size 01 1'], 2, /NODES a number from 1 to 4/],
  ['a group out of order', ['group 2 /a/b', 'group 3 /a/b'], 5, /with G 2/],
  ['a group without its parent', ['group 1 /a\n', 'group 1 /x\n'], 5, /parent stands before it/],
  [
    'a word of the second form', ['tree 0 begin', 'units 0 0 0\ntree 0 begin'], 8,
    /a line of form 1 that may stand here/
  ],
  ['a registration of no cache', ['registered 0 0 0', 'registered 1 0 0'], 7, /C a number below 1/],
  ['a lookup below nought', ['find 0 1 1', 'find 0 -1 1'], 16, /NUMBER a number from 0/],
  ['an answer of no form', ['reply 0 2 offline 0', 'reply 0 2 vanished 0'], 13, /an answer of form 1/],
  [
    'an entry of offlining that isn\'t there', ['reply 0 2 offline 0', 'reply 0 2 offline 2'], 13,
    /an entry of that journal/
  ],
  ['a command out of order', ['reply 0 2 offline', 'reply 0 3 offline'], 13, /with K 2/],
  ['a walk out of order', ['walk 0 1', 'walk 1 1'], 18, /with S 0/],
  ['a map that is too short', ['map 0 0000000000000001', 'map 0 1'], 19, /sixteen hexadecimal digits/],
  ['an outcome of no form', ['held ran 2 2', 'held run 2 2'], 20, /skip or ran or empty/],
  ['a pass without its end', [' 0 through', ' 0'], 20, /through or stop or noroom or worn/],
  ['a word too many', ['closed', 'closed 1'], 27, /`closed` and nothing after it/],
  [
    'a list without an entry', ['list 0 0 2\nadd 0 0 2 k1 =v1 added\nclosed\n', 'list 0 0 2\n'], 26,
    /an entry of the list/
  ],
  ['an empty word', ['add 1 1 1 k4 =v4', 'add 1 1 1  =v4'], 23, /a key/],
  ['an operation left out', ['use 0 1 +', 'use 0 2 +'], 31, /OPERATION 1/],
  ['no total', ['total 2 2 0 6 1\n', ''], 41, /`lookups` or `total`/],
  ['no end', ['end\n', ''], 42, /the text ends here/],
  ['an unended line', ['end\n', 'end'], 42, /a line feed at the end/],
  ['a line behind the end', ['end\n', 'end\nend\n'], 43, /nothing after `end`/],
];

for (const [what, [from, to], line, expected] of REFUSED) {
  test(`refused: ${what}`, () => {
    assert.ok(OFFLINE.includes(from), from);
    assert.throws(() => read_report(OFFLINE.replace(from, to)), error => {
      assert.ok(error instanceof Refusal, error.stack);
      assert.match(error.message, expected);
      assert.equal(error.line, line, error.message);
      return true;
    });
  });
}

test('a report cut anywhere is refused', () => {
  for (let length = 0; length < OFFLINE.length; length++)
    assert.throws(() => read_report(OFFLINE.slice(0, length)), Refusal, `${length} bytes`);
});

test('a report with a byte changed is read or refused, and nothing else', () => {
  for (let at = 0; at < SECOND.report.length; at++)
    for (const byte of ['x', ' ', '\n', '9', '-']) {
      const text = SECOND.report.slice(0, at) + byte + SECOND.report.slice(at + 1);
      try {
        read_report(text);
      } catch (error) {
        assert.ok(error instanceof Refusal, `${at} ${JSON.stringify(byte)}: ${error.stack}`);
      }
    }
});

test('a script is refused with its line, and one of another report is told', () => {
  assert.throws(
      () => read_script(OFFLINE_SCRIPT.replace('shrinkers 1', 'shrinkers 3')),
      /line 1: expected `shrinkers VERSION` with 1 or 2/);
  assert.throws(() => read_script(OFFLINE_SCRIPT.replace('put /a/b', 'putt /a/b')), /a command, `worker` or `end`/);
  assert.throws(() => read_script(OFFLINE_SCRIPT.replace('put /a/b', 'put /a/x')), /a group that was declared/);
  const report = read_report(OFFLINE);
  assert.match(mismatch(read_script(example('first').script), report), /groups of the script and of the report differ/);
  assert.match(
      mismatch(read_script(OFFLINE_SCRIPT.replace('shrink /a 0 0 fs\n', '')), report),
      /worker 1 has 2 answers to give by the script, and 3/);
});
