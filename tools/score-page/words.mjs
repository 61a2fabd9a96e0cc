// Steps, answers and cycles in words.

/** Says the steps of one run in words; `report` names its groups, caches and pools. */
export class Words {
  constructor(report) {
    this.report = report;
  }

  group(number) {
    return this.report.groups[number];
  }

  place(name) {
    const [id, node, group] = name.split(' ').map(Number);
    return `the list of ${this.group(group)}, node ${node}, id ${id}`;
  }

  /** The caches that an id had in a run, in order and each once. */
  caches_of(id) {
    const had = this.report.pool.filter(entry => entry.kind === 'registered' && entry.id === id);
    return [...new Set(had.map(entry => this.report.caches[entry.cache]))];
  }

  /** Who had each id from which step on, once the steps stand in a row. */
  turns(row) {
    this.had = row.filter(step => step.on === 'pool' && step.kind === 'registered');
  }

  /** A place by its group and the cache that has the id at a step, as a bit is named. */
  bit(name, at = Infinity) {
    const [id, node, group] = name.split(' ').map(Number), caches = this.caches_of(id);
    const now = this.had?.filter(step => step.id === id && step.at <= at).at(-1);
    const cache = now ? this.report.caches[now.cache] : caches.length ? caches.join(' or ') : `id ${id}`;
    return `${this.group(group)}, ${cache}${this.report.nodes > 1 ? `, node ${node}` : ''}`;
  }

  pool(name) {
    const [pool, node] = name.split(' ').map(Number);
    return `the pool ${this.report.pools[pool]} on node ${node}`;
  }

  /** A list that lost its bit, and where the report says so. */
  lost({id, node, group, cache, objects, line, bits}) {
    const what = `the list of ${this.group(group)}, node ${node}, cache ${this.report.caches[cache]} (id ${id})`;
    const seen = bits ? `its bit is clear (line ${bits.line}: bit ${id & 63} of ${bits.bits})` :
                        'the report has no line of its bit';
    return `A bit is lost: ${what}, holds ${plural(objects, 'object')} at the end (line ${line}), and ${seen}. ` +
        `No walk of ${this.group(group)} asks ${this.report.caches[cache]} for ${objects === 1 ? 'it' : 'them'}.`;
  }

  /** The place of a deferred word, of a list or of a pool. */
  word(name) {
    return name.split(' ').length === 3 ? this.place(name) : this.pool(name);
  }

  /** How far an order of the takes and gives of a place goes, and which steps then wait for each other. */
  stuck({place, left, all, done, value, next, rows, made}) {
    const head =
        `There is no order of the takes and gives of deferred work at ${this.word(place)}, in which each take takes ` +
        `all that was deferred. In the one that goes furthest ${done} of ${plural(all, 'step')} are done, and ${
            value} is deferred`;
    if (!next.length) return `${head}; the report prints ${left}.`;
    const takes = next.filter(step => step.takes)
                      .map(step => `  ${this.full(step)}\n    can't come next, since that isn't what is deferred\n`);
    const behind = rows.flatMap((row, at) => row.slice(made[at] + 1).filter(step => !step.takes)).slice(0, 3);
    const waits = behind.map(
        step => `  ${this.full(step)}\n    waits for that, since worker ${step.worker} takes them in this order\n`);
    return `${head}. Then\n${[...takes, ...waits].join('')}`.trimEnd();
  }

  who(step) {
    return step.worker === undefined ? '' : `worker ${step.worker}, command ${step.command}`;
  }

  /** A step, without who takes it. */
  step(step) {
    return TELLS[step.on](step, this);
  }

  /** A step with who takes it, as in a cycle. */
  full(step) {
    const who = this.who(step);
    return who ? `${who}: ${this.step(step)}` : this.step(step);
  }

  /** The cycle, a line for each fact. */
  cycle({facts, is_shortest}) {
    const lines = facts.map(({step, why, reason}) => {
      const because = reason === 'own' ? `worker ${step.worker} takes them in this order` : why;
      return `  ${this.full(step)}\n    comes before this, since ${because}:\n`;
    });
    const head = is_shortest ?
        'There is no order of these steps. The shortest cycle:' :
        'There is no order of these steps. A short cycle (the search for the shortest was cut off):';
    return `${head}\n${lines.join('')}  ${this.full(facts[0].step)}`;
  }
}

const plural = (count, word, words = `${word}s`) => `${count} ${count === 1 ? word : words}`;
const number_of = count => (count === 1 ? 'entry' : 'entries');

// What is said of a step, by what it is on.
const TELLS = {
  start: ({text}) => (text ? `begins ${text}` : 'begins'),
  end: ({answer}) => `ends with the answer ${answer.join(' ')}`,
  pool: (s, w) =>
      (s.kind === 'idle' ?
           `the id ${s.id} is idle again (journal of registrations, entry ${s.entry})` :
           `the cache ${w.report.caches[s.cache]} is ${s.kind} under the id ${s.id} (journal of registrations, entry ${
               s.entry}), ${s.kind === 'registered' ? 'from' : 'up to'} lookup ${s.number}`),
  tree: (s, w) => `the group ${w.group(s.group)} ${{
    begin: 'begins to go offline',
    done: 'is offline, and all it had is handed over',
    made: 'is made'
  }[s.kind]} (journal of groups, entry ${s.entry})`,
  list: (s, w) => `${ENTRY[s.kind](s, w)}: entry ${s.entry} of ${w.place(s.list)}`,
  units: (s, w) => `${UNITS[s.kind](s)}: entry ${s.entry} of ${w.pool(s.list)}`,
  use: (s, w) =>
      `${s.up ? 'charges' : 'uncharges'} ${w.group(s.group)}, whose usage was ${s.found} (operation ${s.operation})`,
  word: (s, w) => `finds the group ${w.group(s.group)} ${s.state === 'notmade' ? 'not made yet' : s.state}`,
  walk: (s, w) => `walks ${w.group(s.group)} on node ${s.node} with priority ${s.priority}, ${s.kind}: ${
      s.answer === 'offline' ? 'offline' :
                               `${s.answer === 'memory' ? 'want of memory, ' : ''}freed ${s.freed}`} (walk ${s.walk})`,
  map: (s, w) => `loads the bits of ${w.group(s.group)}, node ${s.node}, unit ${s.unit}: ${bits_of(s)}`,
  lookup: s => `looks up the id ${s.id} (lookup ${s.number})${s.outcome ? `: ${OUTCOME[s.outcome]}` : ''}`,
  count: (s, w) => `counts ${w.place(s.list)} after ${s.entries} ${number_of(s.entries)}`,
  unitscount: (s, w) => `counts ${w.pool(s.list)} after ${s.entries} ${number_of(s.entries)}`,
  set: (s, w) => `sets the bit of ${w.bit(s.list, s.at)}`,
  clear: (s, w) => `clears the bit of ${w.bit(s.list, s.at)}`,
  load: s => `looks at the id ${s.id} again, which is ${s.live ? 'live now' : 'still not live'}`,
  shut: (s, w) => `finds ${w.place(s.list)} closed`,
  poolseen: s => `sees ${plural(s.entries, 'entry', 'entries')} in the journal of registrations`,
  poolknown: s => `knows ${plural(s.entries, 'entry', 'entries')} of the journal of registrations`,
  treeseen: (s, w) =>
      (s.shown === undefined ?
           `sees ${plural(s.entries, 'entry', 'entries')} in the journal of groups` :
           `finds entry ${s.shown} in the journal of groups: ${w.group(w.report.tree[s.shown].group)} ${
               w.report.tree[s.shown].kind === 'made' ? 'is made' : 'is done'}`),
  unitsseen: s => `sees ${plural(s.entries, 'entry', 'entries')} in the journal of the pool`,
  carry: (s, w) => `carries deferred work of ${s.amount} from ${w.word(s.list)} to its parent's`,
  take: (s, w) =>
      `takes ${s.amount > 0n ? `the deferred work of ${s.amount}` : 'no deferred work'} at ${w.word(s.list)}`,
  give: (s, w) => `defers work of ${s.amount} at ${w.word(s.list)}`,
  wait: s => `waits until nobody holds the id ${s.id} any more`,
  plain: s => `walks the pools on node ${s.node} with priority ${s.priority}: freed ${s.freed}`,
  barrier: () => 'all workers are done, and the sweep begins',
};

const OUTCOME = {
  skip: 'held, and skipped',
  ran: 'held, and a pass ran',
  empty: 'held, and the list was empty',
  cleared: 'held, and the list was empty twice',
  restored: 'held; the list was empty, and then not',
  'gone set': 'not live',
  'gone clear': 'not live',
  'gone root': 'not live',
  worn: 'worn',
};

const of = (s, w) => `${s.key} of ${w.group(s.birth)}`;
const ENTRY = {
  add: (s, w) => (s.out === 'added' ? `adds ${of(s, w)} with ${s.value}` : `finds ${of(s, w)} there already`),
  look: (s, w) => (s.out === 'hit' ? `finds ${of(s, w)}` : `misses ${of(s, w)}`),
  drop: (s, w) => (
      {dropped: `drops ${of(s, w)}`, pinned: `leaves ${of(s, w)}, which is pinned`, miss: `misses ${of(s, w)}`}[s.out]),
  pin: (s, w) => (s.out === 'done' ? `pins ${of(s, w)}` : `misses ${of(s, w)}`),
  unpin: (s, w) => (s.out === 'done' ? `unpins ${of(s, w)}` : `misses ${of(s, w)}`),
  scan: s => `scans with a budget of ${s.asked} by the policy ${s.policy}, visits ${s.visits} and frees ${s.freed}${
      s.out === 'stopped' ? ', and is stopped' : ''}`,
  moved: (s, w) => `the list of ${w.group(s.child)} is moved in, with ${plural(s.objects, 'object')}`,
  closed: () => 'the list is closed',
  drained: s => `drains ${plural(s.objects, 'object')}`,
};
const UNITS = {
  release: s => `releases ${plural(s.units, 'unit')}`,
  grab: s => (s.out === 'got' ? 'grabs a unit' : 'finds no unit'),
  reclaim: s => `reclaims ${s.freed} of ${s.asked} units asked for`,
};

// The ids whose bit is set in a map.
function bits_of({bits, unit}) {
  const ids = [];
  for (let bit = 0; bit < 64; bit++)
    if ((parseInt(bits[15 - (bit >> 2)], 16) >> (bit & 3)) & 1) ids.push(64 * unit + bit);
  return ids.length ? `id ${ids.join(', ')}` : 'none';
}
