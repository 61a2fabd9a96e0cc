// The panel beside the picture: what is pointed at, in words. It shows at most some hundred lines, and says how many more
// there are.

import {bit_at} from './bitline.mjs';
import {kind_of_answer, KINDS} from './look.mjs';
import {fates} from './replay.mjs';
import {command_name, first_from} from './rows.mjs';

export const MOST_LINES = 300;

/** An element with its attributes and what stands in it. */
export function element(tag, attributes = {}, ...children) {
  const made = document.createElement(tag);
  for (const [name, value] of Object.entries(attributes))
    if (value !== undefined && value !== null) made.setAttribute(name, value);
  made.append(...children.filter(child => child !== null));
  return made;
}

const more = (count, where) => (count > 0 ? element('p', {class: 'dim'}, `and ${count} more ${where}`) : null);

/** A command, its answer, and its steps in words; around the step that is pointed at, where they are many. */
export function command_panel(run, command, at) {
  const {steps} = command, here = Math.max(0, steps.findIndex(step => step.at >= (at ?? -1)));
  const from = Math.max(0, Math.min(here - MOST_LINES / 2, steps.length - MOST_LINES)),
        shown = steps.slice(from, from + MOST_LINES);
  const lines = shown.map(
      step => element(
          'tr', {
            class: step.at === at ? 'here' : undefined,
            'aria-current': step.at === at ? 'step' : undefined,
            'data-at': step.at
          },
          element('td', {class: 'dim'}, String(step.at)), element('td', {}, run.words.step(step))));
  return [
    element('h2', {}, `worker ${command.worker}, command ${command.number}`),
    command.text ? element('p', {}, element('code', {}, command.text)) : null,
    element(
        'p', {class: 'answer', style: `border-color:${KINDS[kind_of_answer(command.answer)].colour}`},
        command.answer.join(' ')),
    command.answer[0] === 'added' ? element('p', {}, fate(run, command)) : null,
    more(from, 'steps before these'),
    element('table', {class: 'steps'}, element('tbody', {}, ...lines)),
    more(steps.length - from - shown.length, 'steps after these'),
  ];
}

// What became of the object that a put added.
function fate(run, command) {
  run.fates ??= fates(run);
  const {words} = run, list = step => words.place(step.list), added = command.steps.find(step => step.kind === 'add');
  const told = (run.fates.get(command_name(command.worker, command.number)) ?? []).map(step => {
    if (step.kind === 'moved') return {text: `moved to ${list(step)} at step ${step.at}`, on: step};
    return {
      text:
          `${{scan: 'freed', drop: 'dropped', drained: 'drained'}[step.kind]} at step ${step.at} by ${words.who(step)}`,
      on: null
    };
  });
  const last = told.length ? told[told.length - 1].on : added;
  if (last) told.push({text: `at the end on ${list(last)}`});
  return `Its object: ${told.map(({text}) => text).join(', then ')}.`;
}

/** A row at a moment: what a list held, a group's usage, who had an id. */
export function row_panel(run, row, at) {
  const head = element(
      'h2', {},
      `${
          row.kind === 'usage'     ? 'group ' :
              row.kind === 'list'  ? 'list of ' :
              row.kind === 'units' ? 'pool ' :
                                     ''}${row.label}${row.kind === 'fold' ? '' : `, after step ${at}`}`);
  if (row.kind === 'fold')
    return [
      head,
      element(
          'p', {},
          'Taking a group offline closes the lists of all ids, also of those that no cache ever had. A click, or → and ←, shows and hides these rows.')
    ];
  if (row.kind === 'list') return [head, ...list_at(run, row, at)];
  if (row.kind === 'usage') return [head, element('p', {}, usage_at(row, at))];
  if (row.kind === 'id') return [head, element('p', {}, id_at(row, at))];
  if (row.kind === 'units') return [head, element('p', {}, `${level_at(row, at)} free units`)];
  return [];
}

const level_at = (row, at) => {
  const count = first_from(row.at, at + 1);
  return count ? row.value[count - 1] : 0;
};

function usage_at(row, at) {
  const state = row.made !== null && at < row.made ? 'not made yet' :
      row.begin === null || at < row.begin         ? 'online' :
      row.done === null || at < row.done           ? 'going offline' :
                                                     'offline';
  return `usage ${level_at(row, at)}${row.limit === null ? '' : `, with a limit of ${row.limit}`}; ${state}`;
}

function id_at(row, at) {
  const span = row.spans.find(one => at >= one.from && at < one.to);
  return span ? `${span.cache}, ${span.dying ? 'dying: no lookup finds it any more' : 'live'}` : 'idle';
}

const BIT_WORDS = {
  set: 'The bit is set: a walk of the group asks the cache.',
  clear: 'The bit is clear: a walk of the group passes the cache by.',
  unsure: 'Whether the bit is set isn’t known here: what walks saw of it doesn’t tell when it changed.',
};

// What the list's bit was at a moment.
function bit_lines(run, row, at) {
  const state = bit_at(row.bit, at);
  if (state === null) return [];
  if (state !== 'lost') return [element('p', {}, BIT_WORDS[state])];
  return [element('p', {class: 'lost'}, run.words.lost(row.lost))];
}

function list_at(run, row, at) {
  const count = first_from(row.at, at + 1), items = run.played.get(row.name).items_after(count),
        shown = items.slice(0, MOST_LINES);
  const lines = shown.map(
      item => element(
          'tr', {}, element('td', {}, item.key), element('td', {}, item.value),
          element('td', {}, run.words.group(item.birth)), element('td', {}, `${item.worker}.${item.command}`),
          element('td', {}, [item.marked ? 'used' : '', item.pinned ? 'pinned' : ''].filter(word => word).join(', '))));
  const entry = count > 0 ? run.words.step(row.entries[count - 1]) : null;
  return [
    element(
        'p', {},
        `holds ${items.length} object${items.length === 1 ? '' : 's'} after ${count} of ${row.entries.length} entries${
            row.closed !== null && at >= row.closed ? '; closed for ever' : ''} (id ${row.id}, node ${row.node})`),
    ...bit_lines(run, row, at),
    entry ?
        element(
            'p', {},
            `The last of them: ${entry}${
                row.entries[count - 1].worker === undefined ? '' : `, by ${run.words.who(row.entries[count - 1])}`}`) :
                                                              null,
    items.length ?
                                                              element(
                                                                  'table', {class: 'items'},
                                                                  element(
                                                                      'thead', {},
                                                                      element('tr', {}, ...['key', 'value', 'group', 'added by', ''].map(name => element('th', {}, name)))),
                                                                  element('tbody', {}, ...lines)) :
                                                              null,
    more(items.length - shown.length, 'objects'),
  ];
}

/** What a search found, each to be gone to. */
export function results_panel(words, results, which, go) {
  const from = Math.max(0, Math.min(which - MOST_LINES / 2, results.length - MOST_LINES)),
        shown = results.slice(from, from + MOST_LINES);
  const lines = shown.map((result, place) => {
    const button =
        element('button', {type: 'button', class: from + place === which ? 'here' : undefined}, result.label);
    button.addEventListener('click', () => go(from + place));
    return element('li', {}, button);
  });
  return [
    element('h2', {}, `${results.length} found for “${words}”`),
    element(
        'p', {class: 'dim'},
        results.length ? 'Enter goes to the next, Shift and Enter to the one before, Esc ends the search.' :
                         'A key, a group, a cache, a command such as 0.3, or a word of an answer may be searched.'),
    more(from, 'before these'),
    element('ol', {class: 'results', start: from + 1}, ...lines),
    more(results.length - from - shown.length, 'after these'),
  ];
}

const KEYS = [
  ['← →', 'from step to step of a worker, from entry to entry of a list, from change to change of a group or an id'],
  ['Shift ← →', 'from command to command'],
  ['↑ ↓', 'from worker to worker, and on to the groups, caches and lists'],
  ['Home End', 'the first and the last of the row'],
  ['+ −', 'zoom, around the step that is pointed at; 0 shows all'],
  ['/', 'search a key, a group, a cache or a command; n and N go to the next found and the one before'],
  ['Esc', 'point at nothing'],
];

/** What the picture means, and the keys. */
export function help_panel() {
  return [
    element('h2', {}, 'What is drawn'),
    element(
        'p', {},
        'Each step that the report tells stands once, from left to right, in an order that agrees with every worker’s own and with every journal. It is one order in which the run may have been; where two steps touch nothing in common another would do.'),
    element(
        'p', {},
        'Point at a command for its steps, at a list for what it held at that moment, and click to keep what you point at.'),
    element(
        'table', {class: 'keys'},
        element(
            'tbody', {},
            ...KEYS.map(
                ([key, what]) =>
                    element('tr', {}, element('th', {}, element('kbd', {}, key)), element('td', {}, what))))),
    element(
        'p', {class: 'dim'},
        'Hatched: a group that is going offline, or an id whose cache is being unregistered. Grey: a group that is offline, or a list that is closed. The line below a list is its bit: thick while it is set, thin while it is clear, broken where the report doesn’t tell when it changed, red where objects are left and it is lost. Dashed: a group’s limit, where the script is given. Nothing is claimed to be proved of this page.'),
  ];
}
