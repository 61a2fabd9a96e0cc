// Runs random scripts by the built program, and sees that each report has an order and no fault, with its script and without.
// The scripts have all commands of both versions, and most have several workers on few groups and caches.
//
//   node tools/score-page/tests/raced.mjs PROGRAM [COUNT [SEED]]

import {spawnSync} from 'node:child_process';
import {mkdirSync, writeFileSync} from 'node:fs';

import {read_run} from '../check.mjs';

import {chance} from './many.mjs';

const USAGE = 'usage: node tools/score-page/tests/raced.mjs PROGRAM [COUNT [SEED]]\n';
const KINDS = [
  ...Array(9).fill('put'), 'get', 'del', 'pin', 'unpin', ...Array(4).fill('shrink'), 'balance', 'balance', 'offline',
  'mkgroup', 'mkgroup', 'register', 'unregister'
];
const FURTHER = ['isolate', 'isolate', 'release', 'release', 'grab', 'grab'];

/** A script as chance has it. */
function random_script(draw) {
  const one = row => row[draw(row.length)], is_second = draw(6) > 0, nodes = 1 + draw(3);
  const ids = one(is_second ? [1, 2, 3, 5, 70] : [1, 2, 3, 5]),
        lines = [`shrinkers ${is_second ? 2 : 1}`, `size ${nodes} ${ids}`];
  const groups = random_groups(draw, lines), later = groups.filter(group => group.later), caches = [], pools = [];
  for (let on = 0, cache = 0; cache < 1 + draw(5); cache++) {
    const start = on < ids && draw(3) ? 'on' : 'off';
    if (start === 'on') on += 1;
    caches.push(`c${cache}`);
    lines.push(`cache c${cache} ${one(['plain', 'clock', 'halt'])} ${one([0, 1, 2, 5])} ${one([0, 1, 3, 128])} ${
        one([0, 0, 1, 3])} ${one(['fs', 'any'])} ${start}`);
  }
  for (let pool = 0; is_second && pool < 3; pool++) {
    pools.push(`p${pool}`);
    lines.push(`pool p${pool} ${one([0, 1, 2])} ${one([0, 1, 4, 200])} ${one([0, 0, 2])} ${one(['nodes', 'flat'])}`);
  }
  const kinds = is_second ? [...KINDS, ...FURTHER] : KINDS, near = draw(2) ? groups.slice(0, 3) : groups;
  const words = {
    group: () => one([...near, {path: '/'}]).path,
    node: () => (near === groups ? draw(nodes) : 0),
    cache: () => one(caches),
    key: () => `k${draw(12)}`,
    pool: () => one(pools),
    priority: () => one([0, 0, 1, 2, 3, 12]),
    kind: () => one(['fs', 'nofs'])
  };
  const commands = one([5, 15, 40, 120]);
  for (let worker = 2 + draw(7); worker > 0; worker--) {
    lines.push('worker');
    for (let at = 0; at < commands; at++) lines.push(random_command(one(kinds), words, later, draw));
  }
  if (is_second && draw(2)) lines.push(`sweep ${words.priority()} ${words.kind()}`);
  return `${lines.join('\n')}\nend\n`;
}

function random_groups(draw, lines) {
  const groups = [];
  for (let group = 0; group < 1 + draw(9); group++) {
    const parent = [...groups, {path: '', later: false}][draw(groups.length + 1)],
          made = {path: `${parent.path}/g${group}`, later: parent.later || draw(10) < 3};
    groups.push(made);
    lines.push(`${made.later ? 'later' : 'group'} ${made.path} ${draw(3) ? 'max' : 1 + draw(12)}`);
  }
  return groups;
}

function random_command(kind, {group, node, cache, key, pool, priority, kind: entered}, later, draw) {
  const object = () => `${group()} ${node()} ${cache()} ${key()}`;
  switch (kind) {
    case 'offline':
      return draw(5) < 2 ? `offline ${group()}` : `put ${object()} =w`;
    case 'mkgroup':
      return later.length ? `mkgroup ${later[draw(later.length)].path}` : `get ${object()}`;
    case 'put':
      return `put ${object()} =v`;
    case 'shrink':
      return `shrink ${group()} ${node()} ${priority()} ${entered()}`;
    case 'balance':
      return `balance ${node()} ${priority()} ${entered()}`;
    case 'register':
    case 'unregister':
      return `${kind} ${cache()}`;
    case 'isolate':
      return `isolate ${group()} ${node()} ${cache()} ${[0, 1, 3, 9][draw(4)]}`;
    case 'release':
      return `release ${node()} ${pool()} ${1 + draw(20)}`;
    case 'grab':
      return `grab ${node()} ${pool()}`;
    default:
      return `${kind} ${object()}`;
  }
}

// What is wrong with the report of a script, or ''; and how many places were left open.
function judged(report, script) {
  for (const text of [script, '']) {
    const run = read_run(report, text);
    if (run.error) return {wrong: run.error, open: 0};
    if (run.faults.length) return {wrong: run.faults[0].words, open: 0};
    if (run.open) return {wrong: '', open: run.open};
  }
  return {wrong: '', open: 0};
}

function main([program, count = '200', seed = '1']) {
  if (!program || ![count, seed].every(word => /^[0-9]+$/.test(word))) {
    process.stderr.write(USAGE);
    return 2;
  }
  const draw = chance(Number(seed)), folder = `/tmp/score-raced-${process.pid}`;
  let wrong = 0, open = 0, steps = 0;
  for (let turn = 0; turn < Number(count); turn++) {
    const script = random_script(draw),
          done = spawnSync(program, ['run'], {input: script, encoding: 'latin1', maxBuffer: 1e9});
    const found = done.status === 0 ? judged(done.stdout, script) :
                                      {wrong: `status ${done.status}: ${done.stdout?.slice(0, 60)}`, open: 0};
    open += found.open;
    steps += done.stdout ? done.stdout.split('\n').length : 0;
    if (!found.wrong) continue;
    wrong += 1;
    mkdirSync(folder, {recursive: true});
    for (const [kind, text] of [['script', script], ['report', done.stdout]])
      writeFileSync(`${folder}/${turn}.${kind}`, text ?? '');
    process.stdout.write(`${folder}/${turn}.report: ${found.wrong}\n`);
  }
  process.stdout.write(
      `${count} runs with reports of ${steps} lines: ${wrong} refused, ${open} places left undecided\n`);
  return wrong ? 1 : 0;
}

process.exitCode = main(process.argv.slice(2));
