// Reads a script of `shrinkers`, of the forms 1 and 2, and sees that a report can be one of it.

import {KEY, Lines, NAME, PATH, Refusal, VALUE} from './lines.mjs';

/** A script's text as data: each group's limit, each cache's declaration and each worker's commands. */
export function read_script(text) {
  const lines = new Lines(text);
  if (!lines.whole) throw new Refusal(lines.lines.length + 1, 'a line feed at the end of the text');
  const script = {
    version: 0,
    nodes: 0,
    ids: 0,
    groups: [{path: '/', limit: null, later: false}],
    caches: [],
    pools: [],
    workers: [],
    sweep: null
  };
  if (lines.words.length !== 2 || lines.first !== 'shrinkers') lines.refuse('`shrinkers 1` or `shrinkers 2`');
  lines.form('shrinkers VERSION');
  script.version = Number(lines.choice('1', '2'));
  lines.done();
  if (lines.first !== 'size') lines.refuse('`size NODES IDS`');
  lines.form('size NODES IDS');
  script.nodes = lines.count('NODES', 4, 1);
  script.ids = lines.count('IDS', script.version === 1 ? 64 : 256, 1);
  lines.done();
  declarations(lines, script);
  workers(lines, script);
  if (lines.first !== 'end')
    lines.refuse(
        script.workers.length ? 'a command, `worker` or `end`' :
                                '`group`, `later`, `cache`, `pool`, `worker` or `end`');
  lines.form('end');
  lines.done();
  if (lines.at !== lines.lines.length) lines.refuse('nothing after `end`');
  return script;
}

function declarations(lines, script) {
  while (lines.first === 'group' || lines.first === 'later') {
    const later = lines.first === 'later';
    lines.form(`${lines.first} PATH LIMIT`);
    const path = lines.match('a path', PATH);
    const limit = lines.words[2] === 'max' ? (lines.word('LIMIT'), null) : lines.count('LIMIT', 1000000);
    script.groups.push({path, limit, later});
    lines.done();
  }
  while (lines.first === 'cache') {
    lines.form('cache NAME POLICY SEEKS BATCH FLOOR KIND START');
    script.caches.push({
      name: lines.match('a name', NAME),
      policy: lines.choice('plain', 'clock', 'halt'),
      seeks: lines.count('SEEKS', 1000),
      batch: lines.count('BATCH', 20000),
      floor: lines.count('FLOOR', 20000),
      kind: lines.choice('fs', 'any'),
      on: lines.choice('on', 'off') === 'on'
    });
    lines.done();
  }
  while (lines.first === 'pool' && script.version === 2) {
    lines.form('pool NAME SEEKS BATCH FLOOR AWARE');
    script.pools.push({
      name: lines.match('a name', NAME),
      seeks: lines.count('SEEKS', 1000),
      batch: lines.count('BATCH', 20000),
      floor: lines.count('FLOOR', 20000),
      flat: lines.choice('nodes', 'flat') === 'flat'
    });
    lines.done();
  }
}

const OBJECT = ['group', 'node', 'cache', 'key'];
const COMMANDS = {
  put: [...OBJECT, 'value'],
  get: OBJECT,
  del: OBJECT,
  pin: OBJECT,
  unpin: OBJECT,
  shrink: ['group', 'node', 'priority', 'kind'],
  balance: ['node', 'priority', 'kind'],
  offline: ['group'],
  register: ['cache'],
  unregister: ['cache'],
  mkgroup: ['group'],
};
const FURTHER = {
  release: ['node', 'pool', 'units'],
  grab: ['node', 'pool'],
  isolate: ['group', 'node', 'cache', 'budget']
};

function workers(lines, script) {
  const groups = new Map(script.groups.map((group, number) => [group.path, number]));
  const caches = new Map(script.caches.map((cache, number) => [cache.name, number]));
  const pools = new Map(script.pools.map((pool, number) => [pool.name, number]));
  const named = (what, known) => {
    const word = lines.word(what);
    if (!known.has(word)) lines.refuse(`\`${lines.name}\` with ${what} that was declared`);
    return known.get(word);
  };
  const classes = {
    group: () => named('a group', groups),
    cache: () => named('a cache', caches),
    pool: () => named('a pool', pools),
    node: () => lines.below('NODE', script.nodes),
    key: () => lines.match('a key', KEY),
    value: () => lines.match('=VALUE', VALUE),
    priority: () => lines.count('PRIORITY', 12),
    kind: () => lines.choice('fs', 'nofs'),
    units: () => lines.count('UNITS', 20000, 1),
    budget: () => lines.count('BUDGET', 20000),
  };
  while (lines.first === 'worker') {
    lines.form('worker');
    lines.done();
    const commands = [];
    for (;;) {
      const kind = lines.first;
      const form = Object.hasOwn(COMMANDS, kind)               ? COMMANDS[kind] :
          script.version === 2 && Object.hasOwn(FURTHER, kind) ? FURTHER[kind] :
                                                                 null;
      if (!form) break;
      lines.form(`${kind} ${form.map(word => word.toUpperCase()).join(' ')}`);
      const command = {kind, text: lines.words.join(' ')};
      for (const word of form) command[word] = classes[word]();
      commands.push(command);
      lines.done();
    }
    script.workers.push(commands);
  }
  if (lines.first === 'sweep' && script.version === 2 && script.workers.length) {
    lines.form('sweep PRIORITY KIND');
    script.sweep = {priority: lines.count('PRIORITY', 12), kind: lines.choice('fs', 'nofs')};
    lines.done();
  }
}

/** Why a report is of another script, or null. */
export function mismatch(script, report) {
  if (script.version !== report.version)
    return `the script has form ${script.version} and the report form ${report.version}`;
  if (script.nodes !== report.nodes || script.ids !== report.ids)
    return 'the sizes of the script and of the report differ';
  const names = [
    ['groups', script.groups.map(group => group.path), report.groups],
    ['caches', script.caches.map(cache => cache.name), report.caches],
    ['pools', script.pools.map(pool => pool.name), report.pools]
  ];
  for (const [what, one, other] of names)
    if (one.join(' ') !== other.join(' ')) return `the ${what} of the script and of the report differ`;
  const answers = script.workers.map(() => 0);
  for (const command of report.commands) answers[command.worker] = command.number + 1;
  const more = script.sweep ? 1 : 0;
  for (let worker = 0; worker < Math.max(answers.length, script.workers.length); worker++) {
    const due = script.workers[worker] === undefined ? 0 : script.workers[worker].length + more;
    if ((answers[worker] ?? 0) !== due)
      return `worker ${worker} has ${due} answers to give by the script, and ${answers[worker] ?? 0} in the report`;
  }
  return null;
}
