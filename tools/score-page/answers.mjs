// What answers must agree with besides the order: one command makes an entry and cites it, memory that cut a walk short ends
// the command, and a group that the script declares `later` is made before it is used.

import {place_name} from './replay.mjs';

/** What is wrong with the answers of a report, each in words; the script, if there is one, tells of more. */
export function answer_faults(report, script) {
  const cited = citations(report), faults = [];
  for (const command of report.commands) faults.push(...cited(command), ...cuts(command));
  return [...faults, ...(script ? never_made(report, script) : [])].map(words => ({words}));
}

const who = ({worker, command, number}) => `worker ${worker}, command ${command ?? number}`;
const says = command => `${who(command)} answers \`${command.answer.join(' ')}\` (line ${command.line})`;

const OF_LISTS = ['added', 'exists', 'hit', 'miss', 'dropped', 'pinned'], OF_POOLS = ['released', 'grabbed', 'bare'];

// The entry that an answer cites as made by its command: its journal's name, its number, and the kind that it must have.
function cited_by({answer}) {
  const [first, ...words] = answer, numbers = words.map(Number);
  const at = (journal, entry, kind) => ({journal, entry, kind});
  if (OF_LISTS.includes(first) || (first === 'done' && words.length === 4))
    return at(`list ${place_name(...numbers)}`, numbers[3]);
  if (OF_POOLS.includes(first)) return at(`units ${numbers[0]} ${numbers[1]}`, numbers[2]);
  if (first === 'registered') return at('registrations', numbers[1], 'registered');
  if (first === 'freed' || first === 'half') return at('registrations', numbers[1], 'unregistered');
  if (first === 'made') return at('groups', numbers[0], 'made');
  return first === 'done' ? at('groups', numbers[0], 'done') : null;
}

// A function that says what is wrong with the entry that a command cites.
function citations(report) {
  const journals = new Map([['registrations', report.pool], ['groups', report.tree]]), taken = new Map();
  for (const {id, node, group, entries} of report.lists) journals.set(`list ${place_name(id, node, group)}`, entries);
  for (const {pool, node, entries} of report.units) journals.set(`units ${pool} ${node}`, entries);
  const name_of = journal => {
    const [kind, one, node, group] = journal.split(' ');
    if (kind === 'list') return `the list of ${report.groups[group]}, node ${node}, id ${one}`;
    return kind === 'units' ? `the pool ${report.pools[one]} on node ${node}` : `the journal of ${kind}`;
  };
  return command => {
    const cites = cited_by(command);
    if (!cites) return [];
    const {journal, entry: number, kind} = cites, entry = journals.get(journal)?.[number];
    const what = `entry ${number} of ${name_of(journal)}`, earlier = taken.get(`${journal} ${number}`);
    taken.set(`${journal} ${number}`, command);
    if (!entry) return [`${says(command)}, and ${what} isn't there.`];
    if (earlier) return [`${says(command)}, and ${says(earlier)}: one command made ${what}, so one answer cites it.`];
    if (kind && entry.kind !== kind) return [`${says(command)}, and ${what} is \`${entry.kind}\`.`];
    const is_own = entry.worker === undefined || (entry.worker === command.worker && entry.command === command.number);
    return is_own ? [] :
                    [`${says(command)}, and ${
                        entry.command === undefined ? `a walk of worker ${entry.worker}` : who(entry)} made ${what}.`];
  };
}

// A walk that memory cut short is the last of its command, and the answer says so.
function cuts(command) {
  const at = command.walks.findIndex(walk => walk.answer === 'memory');
  if (at < 0) return [];
  const cut = `memory cut its walk ${command.walks[at].number} short`;
  if (at + 1 < command.walks.length)
    return [`${who(command)}: ${cut}, and walk ${command.walks[at + 1].number} comes after it.`];
  return command.answer[0] === 'memory' ? [] : [`${says(command)}, though ${cut}: such a command answers \`memory\`.`];
}

const USES = [...OF_LISTS, 'done', 'over', 'nocache', 'isolated', 'alreadydone', 'haschildren'];

// The groups that the script declares `later` and that nothing made, each with the first command that found it made.
function never_made(report, script) {
  const made = new Set(report.tree.filter(entry => entry.kind === 'made').map(entry => entry.group)), told = new Set();
  return report.commands.flatMap(command => {
    const group = script.workers[command.worker]?.[command.number]?.group;
    if (!script.groups[group]?.later || made.has(group) || told.has(group) || !USES.includes(command.answer[0]))
      return [];
    told.add(group);
    return [
      `${says(command)}, and the group ${
          report.groups[group]} was never made: the script declares it \`later\`, and no entry ` +
      'of the journal of groups makes it.'
    ];
  });
}
