// What the picture shows of a run: its commands with their steps, and a row for each worker, group, id, list and pool.

import {bit_spans} from './bits.mjs';

/** The first place in a rising array whose value isn't below `value`. */
export function first_from(values, value) {
  let low = 0, high = values.length;
  while (low < high) {
    const middle = (low + high) >> 1;
    if (values[middle] < value)
      low = middle + 1;
    else
      high = middle;
  }
  return low;
}

/**
 * The rows of a run from top to bottom, its commands, and which row a step touches besides its worker's. The lists of ids that no
 * cache ever had are behind one row, `fold`, which has them as `hidden`.
 */
export function rows_of(run) {
  const {report, row} = run, commands = commands_of(run), rows = [];
  const title = label => rows.push({kind: 'title', label});
  title('workers: commands');
  const workers = new Map();
  for (const command of commands.values()) {
    if (!workers.has(command.worker)) workers.set(command.worker, []);
    workers.get(command.worker).push(command);
  }
  for (const [worker, own] of [...workers].sort((one, other) => one[0] - other[0])) rows.push(worker_row(worker, own));
  title('groups: usage');
  const uses = grouped(row, step => (step.on === 'use' ? step.group : undefined));
  const tree = grouped(row, step => (step.on === 'tree' ? step.group : undefined));
  report.groups.forEach(
      (path, group) => rows.push(usage_row(run, path, group, uses.get(group) ?? [], tree.get(group) ?? [])));
  title('caches: registrations');
  const pool = grouped(row, step => (step.on === 'pool' ? step.id : undefined));
  for (const [id, steps] of [...pool].sort((one, other) => one[0] - other[0])) rows.push(id_row(run, id, steps));
  title('lists: objects and bits');
  const lists = list_rows(run);
  rows.push(...lists.filter(list => pool.has(list.id)));
  const hidden = lists.filter(list => !pool.has(list.id));
  if (hidden.length) rows.push(fold_row(hidden));
  if (report.units.length) title('pools: free units');
  for (const units of report.units) rows.push(units_row(run, units));
  return {rows, commands, touched: touches([...rows, ...hidden])};
}

const fold_row = hidden => ({
  kind: 'fold',
  label: `${hidden.length} list${hidden.length === 1 ? '' : 's'} of no cache`,
  hidden,
  is_open: false,
  moments: new Int32Array(0)
});

/** Shows or hides the rows behind a row: the rows of the picture from then on. */
export function toggled(rows, fold) {
  fold.is_open = !fold.is_open;
  if (!fold.is_open) return rows.filter(row => !fold.hidden.includes(row));
  const at = rows.indexOf(fold) + 1;
  return [...rows.slice(0, at), ...fold.hidden, ...rows.slice(at)];
}

function grouped(steps, name_of) {
  const groups = new Map();
  for (const step of steps) {
    const name = name_of(step);
    if (name === undefined) continue;
    const group = groups.get(name);
    if (group)
      group.push(step);
    else
      groups.set(name, [step]);
  }
  return groups;
}

export const command_name = (worker, command) => `${worker}.${command}`;

// Each command with its steps in order.
function commands_of(run) {
  const commands = new Map();
  for (const {worker, number, answer} of run.report.commands) {
    const written = run.script?.workers[worker]?.[number];
    commands.set(
        command_name(worker, number), {worker, number, answer, text: written?.text ?? '', steps: [], from: 0, to: 0});
  }
  for (const step of run.row)
    if (step.worker !== undefined && step.command !== undefined)
      commands.get(command_name(step.worker, step.command))?.steps.push(step);
  for (const command of commands.values()) {
    command.from = command.steps[0].at;
    command.to = command.steps[command.steps.length - 1].at;
  }
  return commands;
}

function worker_row(worker, commands) {
  return {
    kind: 'worker',
    worker,
    label: `worker ${worker}`,
    commands,
    to: Int32Array.from(commands, command => command.to),
    moments: Int32Array.from(commands.flatMap(command => command.steps.map(step => step.at)))
  };
}

// A number that changes at some steps: what it is from each of them on.
function levels(steps, change) {
  const at = Int32Array.from(steps, step => step.at), value = new Int32Array(steps.length);
  let now = 0, most = 0;
  steps.forEach((step, place) => {
    now = change(now, step);
    value[place] = now;
    most = Math.max(most, now);
  });
  return {at, value, most};
}

function usage_row(run, path, group, uses, tree) {
  const declared = run.script?.groups[group], level = levels(uses, (now, use) => now + (use.up ? 1 : -1));
  const [made, begin, done] = ['made', 'begin', 'done'].map(kind => tree.find(step => step.kind === kind)?.at ?? null);
  const moments = Int32Array.from([...level.at, ...tree.map(step => step.at)]).sort();
  return {
    kind: 'usage',
    group,
    label: path,
    ...level,
    limit: declared?.limit ?? null,
    made: made ?? (declared?.later ? Infinity : null),
    begin,
    done,
    moments
  };
}

function id_row(run, id, steps) {
  const spans = [];
  let live = null;
  for (const step of steps) {
    if (live) spans.push({...live, to: step.at});
    live = step.kind === 'idle' ?
        null :
        {from: step.at, dying: step.kind === 'unregistered', cache: run.report.caches[step.cache]};
  }
  if (live) spans.push({...live, to: run.row.length});
  return {
    kind: 'id',
    id,
    label: `${run.words.caches_of(id).join(', ')} (id ${id})`,
    spans,
    moments: Int32Array.from(steps, step => step.at)
  };
}

// The rows of the lists, named by group and cache; by the id too, where two would have one name.
function list_rows(run) {
  const spans = bit_spans(run), lost = new Map(run.lost.map(one => [one.place, one]));
  const bits = grouped(run.row, step => (step.on === 'set' || step.on === 'clear' ? step.list : undefined));
  const rows = run.report.lists.map(list => list_row(run, list, bits)), count = new Map();
  for (const {label} of rows) count.set(label, (count.get(label) ?? 0) + 1);
  for (const row of rows) {
    if (count.get(row.label) > 1) row.label += ` (id ${row.id})`;
    row.bit = run.words.caches_of(row.id).length ? spans.get(row.name) ?? null : null;
    row.lost = lost.get(row.name) ?? null;
  }
  return rows;
}

function list_row(run, list, bits) {
  const name = `${list.id} ${list.node} ${list.group}`, entries = run.lists.get(name), {lengths} = run.played.get(name);
  const level = {
    at: Int32Array.from(entries, step => step.at),
    value: Int32Array.from(lengths.subarray(1)),
    most: Math.max(...chunked_most(lengths))
  };
  const last = entries[entries.length - 1], caches = run.words.caches_of(list.id).join(', ') || `id ${list.id}`,
        own = Int32Array.from(bits.get(name) ?? [], step => step.at);
  return {
    kind: 'list',
    name,
    ...list,
    label: `${run.report.groups[list.group]} · ${caches}${run.report.nodes > 1 ? ` · node ${list.node}` : ''}`,
    entries,
    ...level,
    closed: last.kind === 'closed' ? last.at : null,
    moments: Int32Array.from([...level.at, ...own]).sort()
  };
}

// The greatest of each stretch, since a call takes no more than so many arguments.
function chunked_most(values) {
  const most = [0];
  for (let at = 0; at < values.length; at += 10000) most.push(Math.max(...values.subarray(at, at + 10000)));
  return most;
}

function units_row(run, units) {
  const name = `${units.pool} ${units.node}`, entries = run.units.get(name);
  const level = levels(
      entries,
      (now, step) => now +
          (step.kind === 'release'     ? step.units :
               step.kind === 'reclaim' ? -step.freed :
               step.out === 'got'      ? -1 :
                                         0));
  return {
    kind: 'units',
    name,
    pool: units.pool,
    node: units.node,
    label: `${run.report.pools[units.pool]} · node ${units.node}`,
    entries,
    ...level,
    moments: level.at
  };
}

const GROUPS = ['use', 'tree', 'word', 'walk', 'map'], IDS = ['pool', 'lookup', 'wait', 'load'],
      LISTS = ['list', 'count', 'set', 'clear', 'shut', 'take', 'give', 'carry'];

function touches(rows) {
  const by_kind = (kind, part) => new Map(rows.filter(row => row.kind === kind).map(row => [row[part], row]));
  const groups = by_kind('usage', 'group'), ids = by_kind('id', 'id'), lists = by_kind('list', 'name'),
        units = by_kind('units', 'name');
  return step => {
    if (GROUPS.includes(step.on)) return groups.get(step.group);
    if (IDS.includes(step.on)) return ids.get(step.id);
    if (LISTS.includes(step.on)) return lists.get(step.list) ?? units.get(step.list);
    return step.on === 'units' || step.on === 'unitscount' ? units.get(step.list) : undefined;
  };
}
