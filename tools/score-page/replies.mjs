// Reads what a report has of the workers: each command's answer, the cache that was found, its walks and what it carried.

import {VALUE, WORD, entry_of, place, spent} from './lines.mjs';

const HEX = /^[0-9a-f]{16}$/;

/** The workers' commands, each with all that stands under its reply. */
export function workers(lines, report) {
  const known = {walks: [], plain: [], last: {worker: 0, number: -1}};
  while (lines.first === 'reply') {
    const command = reply(lines, report, known.last);
    known.last = command;
    report.commands.push(command);
    if (lines.first === 'find') {
      lines.form('find ID NUMBER ENTRY');
      command.find = {
        id: lines.below('ID', report.ids),
        number: lines.count('NUMBER', WORD),
        entry: lines.count('ENTRY', report.pool.length)
      };
      lines.done();
    }
    if (lines.first === 'isolation' && report.version === 2) isolation(lines, report, command);
    while (lines.first === 'walk') walk(lines, report, command, known);
    while (lines.first === 'carry') {
      lines.form('carry ID NODE G AMOUNT');
      command.carries.push({...place(lines, report), amount: lines.wide('AMOUNT')});
      lines.done();
    }
    while (lines.first === 'plain' && report.version === 2) plain(lines, report, command, known);
  }
}

// The words of each answer after the first, by their classes.
const AT = lines_at => (lines, report) => {
  place(lines, report);
  lines.count('ENTRY', WORD);
  if (lines_at) lines.match('=VALUE', VALUE);
};
const TREE = (lines, report) => entry_of('ENTRY', lines, report.tree);
const REGISTRATION = (lines, report) => {
  lines.below('ID', report.ids);
  entry_of('ENTRY', lines, report.pool);
};
const UNITS = (lines, report) => {
  lines.below('P', report.pools.length);
  lines.below('NODE', report.nodes);
  lines.count('ENTRY', WORD);
};
const ANSWERS = {
  added: AT(),
  exists: AT(),
  miss: AT(),
  dropped: AT(),
  pinned: AT(),
  hit: AT(true),
  done: (lines, report) =>
      (lines.words.length === 7 ? (entry_of('ENTRY', lines, report.tree), lines.wide('MOVED'), lines.wide('DEFERRED')) :
                                  AT()(lines, report)),
  offline: TREE,
  alreadydone: TREE,
  made: TREE,
  alreadymade: TREE,
  over: (lines, report) => {
    lines.below('G', report.groups.length);
    lines.count('OPERATION');
    lines.count('USAGE', WORD);
  },
  nocache: (lines, report) => lines.count('ENTRY', report.pool.length),
  alreadyregistered: (lines, report) => lines.count('ENTRY', report.pool.length),
  noid: (lines, report) => lines.count('ENTRY', report.pool.length),
  worn: spent,
  memory: lines => {
    if (lines.words.length > lines.taken) lines.wide('FREED');
  },
  walked: lines => lines.wide('FREED'),
  root: () => {},
  haschildren: (lines, report) => {
    lines.below('G', report.groups.length);
    lines.count('ENTRY', report.tree.length);
  },
  notmade: (lines, report) => lines.below('G', report.groups.length),
  registered: REGISTRATION,
  freed: (lines, report) => {
    REGISTRATION(lines, report);
    ['FROM', 'TO', 'OBJECTS'].forEach(what => lines.count(what, WORD));
  },
  half: (lines, report) => {
    ANSWERS.freed(lines, report);
    if (lines.choice('memory', 'worn') === 'worn') spent(lines, report);
  },
};
const FURTHER = {
  released: UNITS,
  grabbed: UNITS,
  bare: UNITS,
  full: (lines, report) => {
    UNITS(lines, report);
    lines.count('FREE', WORD);
  },
  isolated: (lines, report) => {
    lines.count('VISITS', WORD);
    lines.count('FREED', WORD);
    isolated_end(lines, report);
  },
  swept: lines => {
    lines.count('JOBS', WORD);
    lines.wide('FREED');
  },
};

function isolated_end(lines, report) {
  if (lines.choice('spent', 'bare', 'stop', 'closed', 'noroom', 'worn') === 'worn') spent(lines, report);
}

function reply(lines, report, last) {
  lines.form('reply W K ANSWER');
  const worker = lines.count('W', 63, last.worker);
  const number = lines.due('K', worker === last.worker ? last.number + 1 : 0);
  const answers = report.version === 2 && FURTHER[lines.words[3]] ? FURTHER : ANSWERS;
  const rule = Object.hasOwn(answers, lines.words[3]) ? answers[lines.words[3]] : null;
  if (!rule) lines.refuse(`\`reply W K ANSWER\` with an answer of form ${report.version}`);
  lines.form(`reply W K ${lines.words[3]} ..`);
  lines.taken = 4;
  rule(lines, report);
  const command = {
    worker,
    number,
    answer: lines.words.slice(3),
    find: null,
    isolation: null,
    walks: [],
    carries: [],
    plain: [],
    line: lines.number
  };
  lines.done();
  return command;
}

function isolation(lines, report, command) {
  lines.form('isolation ID NODE G BUDGET VISITS FREED END');
  const at = place(lines, report);
  command.isolation = {
    ...at,
    budget: lines.count('BUDGET', 20000),
    visits: lines.count('VISITS', WORD),
    freed: lines.count('FREED', WORD)
  };
  const from = lines.taken;
  isolated_end(lines, report);
  command.isolation.end = lines.words.slice(from).join(' ');
  lines.done();
}

function walk(lines, report, command, known) {
  lines.form('walk S G NODE PRIORITY KIND ran FREED, or .. offline ENTRY, or .. memory FREED');
  const number = known.walks[command.worker] ?? 0;
  known.walks[command.worker] = number + 1;
  lines.due('S', number);
  const one = {
    number,
    group: lines.below('G', report.groups.length),
    node: lines.below('NODE', report.nodes),
    priority: lines.count('PRIORITY', 12),
    kind: lines.choice('fs', 'nofs'),
    answer: lines.choice('ran', 'offline', 'memory'),
    looks: []
  };
  if (one.answer === 'offline')
    one.entry = entry_of('ENTRY', lines, report.tree);
  else
    one.freed = lines.wide('FREED');
  lines.done();
  for (;;) {
    if (lines.first === 'map') {
      lines.form('map UNIT HEX');
      one.looks.push(
          {map: lines.below('UNIT', Math.ceil(report.ids / 64)), bits: lines.match('sixteen hexadecimal digits', HEX)});
      lines.done();
    } else if (lines.first === 'try')
      one.looks.push(attempt(lines, report));
    else
      break;
  }
  command.walks.push(one);
}

// One attempt of a walk: the id, the lookup's number, the counts that it saw and the pass.
function attempt(lines, report) {
  lines.form('try ID worn SEEN, try ID NUMBER gone THEN, or try ID NUMBER held OUTCOME');
  const one = {id: lines.below('ID', report.ids), number: undefined, outcome: 'worn', counts: [], pass: null};
  if (lines.words[2] === 'worn') {
    lines.word('worn');
    lines.count('SEEN', WORD);
    lines.done();
    return one;
  }
  one.number = lines.count('NUMBER', WORD);
  if (lines.choice('gone', 'held') === 'gone') {
    one.outcome = 'gone ' + lines.choice('set', 'clear', 'root');
    lines.done();
    return one;
  }
  one.outcome = lines.choice('skip', 'ran', 'empty', 'cleared', 'restored');
  if (one.outcome === 'empty') one.counts.push(lines.count('VERSION', WORD));
  if (one.outcome === 'cleared') one.counts.push(lines.count('FIRST', WORD), lines.count('SECOND', WORD));
  if (one.outcome === 'restored') one.counts.push(lines.count('FIRST', WORD));
  const last = one.outcome === 'restored' ? lines.choice('skip', 'ran') : one.outcome;
  if (last === 'skip') {
    one.len = lines.count('LEN', WORD);
    one.counts.push(lines.count('VERSION', WORD));
  }
  if (last === 'ran') {
    one.pass = pass_of(lines, report);
    one.counts.push(one.pass.version);
  }
  lines.done();
  return one;
}

function pass_of(lines, report) {
  const pass = {
    len: lines.count('LEN', WORD),
    version: lines.count('VERSION', WORD),
    nr: lines.wide('NR'),
    asks: lines.count('ASKS', WORD),
    closed: lines.count('CLOSED', WORD),
    scanned: lines.wide('SCANNED'),
    freed: lines.wide('FREED'),
    next: lines.wide('NEXT')
  };
  const from = lines.taken;
  if (lines.choice('through', 'stop', 'noroom', 'worn') === 'worn') spent(lines, report);
  pass.end = lines.words.slice(from).join(' ');
  return pass;
}

function plain(lines, report, command, known) {
  lines.form('plain S NODE PRIORITY ran FREED, or .. memory FREED');
  const number = known.plain[command.worker] ?? 0;
  known.plain[command.worker] = number + 1;
  lines.due('S', number);
  const one = {
    number,
    node: lines.below('NODE', report.nodes),
    priority: lines.count('PRIORITY', 12),
    answer: lines.choice('ran', 'memory'),
    freed: lines.wide('FREED'),
    passes: []
  };
  lines.done();
  while (lines.first === 'pass') {
    lines.form('pass P empty VERSION, pass P skip LEN VERSION, or pass P ran PASS');
    const pass = {pool: lines.below('P', report.pools.length), kind: lines.choice('empty', 'skip', 'ran')};
    if (pass.kind === 'skip') lines.count('LEN', WORD);
    if (pass.kind === 'ran') {
      pass.pass = pass_of(lines, report);
      pass.version = pass.pass.version;
    } else
      pass.version = lines.count('VERSION', WORD);
    lines.done();
    one.passes.push(pass);
  }
  command.plain.push(one);
}
