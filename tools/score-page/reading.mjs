// Reads a report of `shrinkers`, of the forms 1 and 2, and refuses anything else with the line and what was expected there.

import {KEY, Lines, NAME, parents_of, PATH, place, Refusal, VALUE, WORD} from './lines.mjs';
import {workers} from './replies.mjs';

const ISOLATIONS = 2n ** 63n;
const HEX = /^[0-9a-f]{16}$/, SIGNED = /^(0|-?[1-9][0-9]{0,14})$/;

// The first words of a report's lines by section, in the order of the sections.
const SECTIONS = [
  ['group'],
  ['cache'],
  ['pool'],
  ['tree'],
  ['reply'],
  ['list'],
  ['units'],
  ['bit'],
  ['deferred'],
  ['pooldeferred'],
  ['use'],
  ['lookups'],
  ['total'],
];

/** A report's text as data. */
export function read_report(text) {
  const lines = new Lines(text);
  if (!lines.whole) throw new Refusal(lines.lines.length + 1, 'a line feed at the end of the text');
  const report = {
    version: 0,
    nodes: 0,
    ids: 0,
    groups: [],
    parents: [],
    caches: [],
    pools: [],
    pool: [],
    tree: [],
    commands: [],
    lists: [],
    units: [],
    bits: [],
    deferred: [],
    pool_deferred: [],
    uses: [],
    lookups: [],
    total: null,
  };
  head(lines, report);
  journals(lines, report);
  workers(lines, report);
  lists(lines, report);
  ends(lines, report);
  if (lines.at !== lines.lines.length) lines.refuse('nothing after `end`');
  return report;
}

// What may begin a line from a section on.
function from_section(first, version) {
  const at = SECTIONS.findIndex(words => words[0] === first);
  const words =
      SECTIONS.slice(at).flat().filter(word => version === 2 || (word !== 'units' && word !== 'pooldeferred'));
  return words.map(word => `\`${word}\``).join(', ').replace(/, ([^,]*)$/, ' or $1');
}

function head(lines, report) {
  if (lines.first !== 'report') lines.refuse('`report 1` or `report 2`');
  lines.form('report VERSION');
  report.version = Number(lines.choice('1', '2'));
  lines.done();
  if (lines.first !== 'size') lines.refuse('`size NODES IDS`');
  lines.form('size NODES IDS');
  report.nodes = lines.count('NODES', 4, 1);
  report.ids = lines.count('IDS', report.version === 1 ? 64 : 256, 1);
  lines.done();
  while (lines.first === 'group') {
    lines.form('group G PATH');
    lines.due('G', report.groups.length);
    const path = lines.match('a path', PATH);
    if ((path === '/') !== (report.groups.length === 0))
      lines.refuse('`group 0 /` first, and no other group with that path');
    report.groups.push(path);
    lines.done();
  }
  if (!report.groups.length) lines.refuse('`group 0 /`');
  report.parents = parents_of(report.groups);
  report.parents.forEach((parent, group) => {
    if (parent === undefined || parent > group)
      throw new Refusal(3 + group, 'a group whose parent stands before it', report.groups[group]);
  });
  while (lines.first === 'cache') {
    lines.form('cache C NAME');
    lines.due('C', report.caches.length);
    report.caches.push(lines.match('a name', NAME));
    lines.done();
  }
  while (report.version === 2 && lines.first === 'pool' && lines.words.length === 3) {
    lines.form('pool P NAME');
    lines.due('P', report.pools.length);
    report.pools.push(lines.match('a name', NAME));
    lines.done();
  }
}

function journals(lines, report) {
  while (lines.first === 'pool') {
    lines.form('pool E registered C ID FROM, pool E unregistered C ID TO, or pool E idle ID');
    lines.due('E', report.pool.length);
    const kind = lines.choice('registered', 'unregistered', 'idle'), entry = {kind};
    if (kind !== 'idle') entry.cache = lines.below('C', report.caches.length);
    entry.id = lines.below('ID', report.ids);
    if (kind !== 'idle') entry.number = lines.count(kind === 'registered' ? 'FROM' : 'TO', WORD);
    report.pool.push(entry);
    lines.done();
  }
  while (lines.first === 'tree') {
    lines.form('tree E begin G, tree E done G, or tree E made G');
    lines.due('E', report.tree.length);
    const kind = lines.choice('begin', 'done', 'made');
    report.tree.push({kind, group: lines.below('G', report.groups.length)});
    lines.done();
  }
}

function serial(lines) {
  return {worker: lines.count('W', 63), command: lines.count('K', WORD)};
}

function object(lines, report) {
  return {...serial(lines), birth: lines.below('BIRTH', report.groups.length), key: lines.match('a key', KEY)};
}

// The forms of the entries of a list's journal, by first word.
const ENTRIES = {
  add: [
    'add W K BIRTH KEY =VALUE added, or exists',
    (lines, report) =>
        ({...object(lines, report), value: lines.match('=VALUE', VALUE), out: lines.choice('added', 'exists')})
  ],
  look: [
    'look W K BIRTH KEY hit, or miss', (lines, report) => ({...object(lines, report), out: lines.choice('hit', 'miss')})
  ],
  drop: [
    'drop W K BIRTH KEY dropped, pinned or miss',
    (lines, report) => ({...object(lines, report), out: lines.choice('dropped', 'pinned', 'miss')})
  ],
  pin: [
    'pin W K BIRTH KEY done, or miss',
    (lines, report) => ({...object(lines, report), out: lines.choice('done', 'miss')})
  ],
  unpin: [
    'unpin W K BIRTH KEY done, or miss',
    (lines, report) => ({...object(lines, report), out: lines.choice('done', 'miss')})
  ],
  scan: ['scan W S ASKED POLICY VISITS FREED whole, or stopped', scan],
  moved: [
    'moved CHILD OBJECTS',
    (lines, report) => ({child: lines.below('CHILD', report.groups.length), objects: lines.count('OBJECTS', WORD)})
  ],
  closed: ['closed', () => ({})],
  drained: ['drained W K OBJECTS', lines => ({...serial(lines), objects: lines.count('OBJECTS', WORD)})],
};

// A scan belongs to a walk of its worker or, where its number is 2^63 or more, to an isolation.
function scan(lines) {
  const worker = lines.count('W', 63), number = lines.wide('S'), isolated = number >= ISOLATIONS;
  return {
    worker,
    isolated,
    walk: Number(isolated ? number - ISOLATIONS : number),
    asked: lines.count('ASKED', WORD),
    policy: lines.choice('plain', 'clock', 'halt'),
    visits: lines.count('VISITS', WORD),
    freed: lines.count('FREED', WORD),
    out: lines.choice('whole', 'stopped')
  };
}

function lists(lines, report) {
  while (lines.first === 'list') {
    lines.form('list ID NODE G');
    const list = {line: lines.number, ...place(lines, report), entries: [], items: []};
    lines.done();
    while (Object.hasOwn(ENTRIES, lines.first)) {
      const kind = lines.first, [form, rule] = ENTRIES[kind];
      lines.form(form);
      list.entries.push({kind, ...rule(lines, report)});
      lines.done();
    }
    if (!list.entries.length)
      lines.refuse(
          'an entry of the list: `add`, `look`, `drop`, `pin`, `unpin`, `scan`, `moved`, `closed` or `drained`');
    while (lines.first === 'item') {
      lines.form('item W K BIRTH KEY =VALUE MARK PIN');
      list.items.push({
        ...object(lines, report),
        value: lines.match('=VALUE', VALUE),
        marked: lines.choice('marked', 'clean') === 'marked',
        pinned: lines.choice('pinned', 'loose') === 'pinned'
      });
      lines.done();
    }
    report.lists.push(list);
  }
  while (lines.first === 'units' && report.version === 2) units(lines, report);
}

function units(lines, report) {
  lines.form('units P NODE FREE');
  const one = {
    pool: lines.below('P', report.pools.length),
    node: lines.below('NODE', report.nodes),
    free: lines.count('FREE', WORD),
    entries: []
  };
  lines.done();
  for (;;) {
    const kind = lines.first;
    if (kind === 'release') {
      lines.form('release W K UNITS');
      one.entries.push({kind, ...serial(lines), units: lines.count('UNITS', 20000)});
    } else if (kind === 'grab') {
      lines.form('grab W K got, or bare');
      one.entries.push({kind, ...serial(lines), out: lines.choice('got', 'bare')});
    } else if (kind === 'reclaim') {
      lines.form('reclaim W S ASKED FREED');
      one.entries.push({
        kind,
        worker: lines.count('W', 63),
        walk: lines.count('S'),
        asked: lines.count('ASKED', WORD),
        freed: lines.count('FREED', WORD)
      });
    } else
      break;
    lines.done();
  }
  report.units.push(one);
}

function ends(lines, report) {
  const {groups, version} = report;
  while (lines.first === 'bit') {
    lines.form(version === 1 ? 'bit NODE G HEX' : 'bit NODE G UNIT HEX');
    report.bits.push({
      line: lines.number,
      node: lines.below('NODE', report.nodes),
      group: lines.below('G', groups.length),
      unit: version === 1 ? 0 : lines.below('UNIT', Math.ceil(report.ids / 64)),
      bits: lines.match('sixteen hexadecimal digits', HEX)
    });
    lines.done();
  }
  while (lines.first === 'deferred') {
    lines.form('deferred ID NODE G N');
    report.deferred.push({...place(lines, report), amount: lines.wide('N')});
    lines.done();
  }
  while (lines.first === 'pooldeferred' && version === 2) {
    lines.form('pooldeferred P NODE N');
    report.pool_deferred.push({
      pool: lines.below('P', report.pools.length),
      node: lines.below('NODE', report.nodes),
      amount: lines.wide('N')
    });
    lines.done();
  }
  let last = {group: 0, operation: -1};
  while (lines.first === 'use') {
    lines.form('use G OPERATION SIGN FOUND W K');
    const group = lines.below('G', groups.length);
    const operation = lines.due('OPERATION', group === last.group ? last.operation + 1 : 0);
    if (group < last.group) lines.refuse('the operations by groups, in rising order');
    last = {
      group,
      operation,
      up: lines.choice('+', '-') === '+',
      found: Number(lines.match('FOUND a number', SIGNED)),
      ...serial(lines)
    };
    report.uses.push(last);
    lines.done();
  }
  while (lines.first === 'lookups') {
    lines.form('lookups ID N');
    lines.due('ID', report.lookups.length);
    if (report.lookups.length === report.ids) lines.refuse('no more than IDS lines `lookups ID N`');
    report.lookups.push(lines.count('N', WORD));
    lines.done();
  }
  if (lines.first !== 'total') lines.refuse(expected_after(report));
  lines.form('total ADDED FREED LISTED REPLIES WALKS');
  const [added, freed, listed, replies, walks] =
      ['ADDED', 'FREED', 'LISTED', 'REPLIES', 'WALKS'].map(what => lines.count(what));
  report.total = {added, freed, listed, replies, walks};
  lines.done();
  if (lines.first !== 'end') lines.refuse('`end`');
  lines.form('end');
  lines.done();
}

// Which lines may stand where the reader is, by the last section that had a line.
function expected_after(report) {
  const {version} = report;
  const filled = [
    ['lookups', report.lookups], ['use', report.uses], ['deferred', report.deferred], ['bit', report.bits],
    ['list', report.lists], ['reply', report.commands], ['tree', report.tree], ['pool', report.pool],
    ['cache', report.caches], ['group', report.groups]
  ].find(([, rows]) => rows.length);
  const within = {reply: '`find`, `walk`, `map`, `try`, `carry`, ', list: 'an entry, `item`, '}[filled[0]] ?? '';
  return `a line of form ${version} that may stand here: ${within}${from_section(filled[0], version)}`;
}
