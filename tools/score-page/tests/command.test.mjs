// The command line: pages, checks, and how they end.

import assert from 'node:assert/strict';
import {spawnSync} from 'node:child_process';
import {mkdtempSync, readdirSync, readFileSync, rmSync, writeFileSync} from 'node:fs';
import {tmpdir} from 'node:os';
import {join} from 'node:path';
import {after, test} from 'node:test';
import {fileURLToPath} from 'node:url';

import {example, EXAMPLES} from './cases.mjs';

const tools = fileURLToPath(new URL('../../', import.meta.url)), here = fileURLToPath(new URL('./', import.meta.url));
const run = (tool, words, input) => {
  const {status, stdout, stderr} = spawnSync(join(tools, tool), words, {input, encoding: 'utf8', maxBuffer: 1e8});
  return {status, stdout, stderr};
};
const path = name => join(fileURLToPath(EXAMPLES), name);

test('a page is written of a report, with its script or without', () => {
  for (const words of [[path('offline.report')], [path('offline.script'), path('offline.report')]]) {
    const {status, stdout, stderr} = run('score', words);
    assert.deepEqual([status, stderr], [0, '']);
    assert.match(stdout, /^<!doctype html>[^]*<\/html>\n$/);
    assert.equal(stdout.includes('put /a/b 0 dentry k1 =v1'), words.length === 2);
  }
  assert.match(run('score', ['-'], example('first').report).stdout, /^<!doctype html>/);
});

test('no page is written of a report that is refused, has no order, or is of another script', () => {
  const refused = run('score', ['-'], example('first').report.replace('end\n', ''));
  assert.deepEqual([refused.status, refused.stdout], [1, '']);
  assert.match(refused.stderr, /^-: The report is refused\. Line 17: expected `end`/);
  const cycle = run('score', [join(here, 'wrong/charges_cross.report')]);
  assert.deepEqual([cycle.status, cycle.stdout], [1, '']);
  assert.match(cycle.stderr, /The shortest cycle/);
  const other = run('score', [path('first.script'), path('offline.report')]);
  assert.deepEqual([other.status, other.stdout], [1, '']);
  assert.match(other.stderr, /The report is not of this script/);
});

test('--check tells of each report whether its steps have an order', () => {
  const good = run('score', ['--check', path('first.report'), path('offline.report')]);
  assert.deepEqual([good.status, good.stderr], [0, '']);
  assert.match(
      good.stdout,
      /first\.report: an order of its 10 steps was found\n.*offline\.report: an order of its \d+ steps was found\n$/);
  const bad = run('score', ['--check', path('first.report'), join(here, 'wrong/lookups_fall_back.report')]);
  assert.equal(bad.status, 1);
  assert.match(
      bad.stdout,
      /first\.report: an order[^]*lookups_fall_back\.report: There is no order of these steps\. The shortest cycle:\n/);
});

// What `--check` says of files, without the folders of their names.
const checked = words => {
  const {status, stdout, stderr} = run('score', ['--check', ...words]);
  return [status, `${stdout}${stderr}`.replaceAll(`${folder}/`, '').replaceAll(path(''), '')];
};
const file = (name, text) => {
  writeFileSync(join(folder, name), text);
  return join(folder, name);
};
const folder = mkdtempSync(join(tmpdir(), 'score-command-'));
after(() => rmSync(folder, {recursive: true}));

test('a script stands before its report, of several pairs too', () => {
  const pair = name => [path(`${name}.script`), path(`${name}.report`)];
  const [good, told] = checked([...pair('first'), ...pair('limit'), path('offline.report')]);
  assert.equal(good, 0);
  assert.deepEqual(
      told.replace(/of its \d+ steps/g, 'of steps').split('\n'),
      ['first', 'limit', 'offline'].map(name => `${name}.report: an order of steps was found`).concat(''));
  const [status, said] = checked([path('limit.script'), ...pair('first')]);
  assert.equal(status, 2);
  assert.match(
      said,
      /^first\.report: an order .*\ntools\/score: limit\.script: a script without its report; SCRIPT comes before/m);
  assert.match(checked([path('limit.script'), path('first.report')])[1], /The report is not of this script/);
});

test('a script with its report behind it is a pair by itself', () => {
  const {script, report} = example('first');
  assert.deepEqual(
      checked([file('both.input', script + report)]), [0, 'both.input: an order of its 10 steps was found\n']);
  assert.match(run('score', ['-'], script + report).stdout, /^<!doctype html>/);
});

test('what can\'t be served is told and skipped, and the others are served', () => {
  const served = path('first.report'), line = /^first\.report: an order of its 10 steps was found$/m;
  for (const [name, text, status, why] of [
           ['refused.report', 'refused 13 UnknownWord\n', 2, /what the program writes of a script that it refuses/],
           ['empty', '', 2, /the file is empty/], ['page', '# Examples\n', 2, /this one is "# Examples"/],
           ['marked.script', '\ufeffshrinkers 1\n', 2, /neither a script/],
           ['alone.script', example('first').script, 2, /a script without its report/]]) {
    const [got, said] = checked([served, file(name, text)]);
    assert.equal(got, status, name);
    assert.match(said, line);
    assert.match(said, why);
  }
  const [status, said] = checked([join(folder, 'nothing'), served, folder]);
  assert.equal(status, 3);
  assert.match(said, line);
  assert.match(said, /nothing: ENOENT[^]*EISDIR/);
  assert.equal(run('score', ['-o', join(folder, 'made'), served, path('first.script')]).status, 2);
  assert.ok(readFileSync(join(folder, 'made', 'first.html'), 'utf8').includes('</html>'));
});

test('other words, and files that can\'t be read, have a status of their own', () => {
  for (const words of [[], ['--check'], ['--draw', 'x'], ['-o'], ['-o', folder], ['--check', '-o', folder, 'x'], ['--check', '--json', 'x']]) {
    const {status, stdout, stderr} = run('score', words);
    assert.deepEqual([status, stdout], [2, ''], words.join(' '));
    assert.match(stderr, /^tools\/score: .*\nusage: /);
  }
  assert.match(run('score', [path('first.report'), path('limit.report')]).stderr, /several reports take -o FOLDER/);
  assert.match(run('score', ['--help']).stdout, /^usage: tools\/score/);
  const missing = run('score', [join(here, 'nothing.report')]);
  assert.deepEqual([missing.status, missing.stdout], [3, '']);
  assert.equal(run('score', ['--check', here]).status, 3);
});

test('a lost bit is told with its list and its lines, and is drawn', () => {
  const {script, report} = example('container-leaves'), full = 'bit 0 1 0000000000000003';
  assert.ok(report.includes(full));
  const words = [file('lost.script', script), file('lost.report', report.replace(full, 'bit 0 1 0000000000000002'))];
  assert.deepEqual(checked(words), [
    1,
    'lost.report: A bit is lost: the list of /host, node 0, cache dentry (id 0), holds 1 object at the end (line 56), and its ' +
        'bit is clear (line 79: bit 0 of 0000000000000002). No walk of /host asks dentry for it.\n'
  ]);
  const page = run('score', words);
  assert.equal(page.status, 1);
  assert.match(page.stdout, /<\/html>\n$/);
  assert.match(page.stderr, /A bit is lost/);
});

test('the page of each example is made by one command', () => {
  const folder = mkdtempSync(join(tmpdir(), 'score-examples-'));
  assert.equal(run('score-examples', [folder]).status, 0);
  const made = readdirSync(folder).sort(),
        examples = [...readdirSync(EXAMPLES), ...readdirSync(new URL('races/', EXAMPLES))]
                       .filter(name => name.endsWith('.report'))
                       .map(name => name.replace('.report', '.html'));
  assert.deepEqual(made, examples.sort());
  for (const name of made) assert.match(readFileSync(join(folder, name), 'utf8'), /^<!doctype html>/);
  writeFileSync(join(folder, 'file'), '');
  assert.equal(run('score-examples', [join(folder, 'file', 'below')]).status, 3);
  assert.equal(run('score-examples', []).status, 2);
  rmSync(folder, {recursive: true});
});
