// What each list held after each of its entries, by the entries alone: no order of the steps is wanted for it.

const EVERY = 256;

/** The name of a place among the lists of a report. */
export const place_name = (id, node, group) => `${id} ${node} ${group}`;

/** An item's name within its list. */
const name_of = (birth, key) => `${birth} ${key}`;

/**
 * Plays each list's journal. Each gives `lengths` (after so many entries), `takes` (by entry, the objects that were freed,
 * dropped or drained, in order), `moves` (by entry, those that were moved in), `fills` (the entries that found the list empty
 * and left something on it), and `items_after(entries)`.
 */
export function play(report) {
  const played = new Map();
  // A child has a higher number than its parent, and what it hands over is played first.
  const order = [...report.lists].sort((one, other) => other.group - one.group);
  for (const list of order) played.set(place_name(list.id, list.node, list.group), play_list(list, played));
  return played;
}

function play_list(list, played) {
  const {entries} = list, lengths = new Uint32Array(entries.length + 1), takes = new Map(), moves = new Map(),
        fills = new Set(), stops = [];
  let items = new Map(), handed = [];
  entries.forEach((entry, at) => {
    if (at % EVERY === 0) stops.push([...items.values()]);
    if (entry.kind === 'closed') handed = [...items.values()];
    const step = step_of(items, entry, list, played);
    items = step.items;
    if (step.taken.length) (entry.kind === 'moved' ? moves : takes).set(at, step.taken);
    lengths[at + 1] = items.size;
    if (lengths[at] === 0 && items.size > 0) fills.add(at);
  });
  const items_after = count => {
    const from = Math.min(Math.floor(count / EVERY), stops.length - 1);
    let now = new Map((stops[from] ?? []).map(item => [name_of(item.birth, item.key), item]));
    for (let at = from * EVERY; at < count; at++) now = step_of(now, entries[at], list, played).items;
    return [...now.values()];
  };
  return {lengths, takes, moves, fills, items_after, handed};
}

// One entry: the items afterwards, and the objects that went away or were moved in.
function step_of(items, entry, list, played) {
  const none = [], name = entry.key === undefined ? '' : name_of(entry.birth, entry.key), item = items.get(name);
  switch (entry.kind) {
    case 'add':
      if (entry.out === 'added')
        items.set(name, {
          birth: entry.birth,
          key: entry.key,
          value: entry.value,
          marked: false,
          pinned: false,
          worker: entry.worker,
          command: entry.command
        });
      return {items, taken: none};
    case 'look':
      if (item) items.set(name, {...item, marked: true});
      return {items, taken: none};
    case 'drop':
      if (entry.out !== 'dropped') return {items, taken: none};
      items.delete(name);
      return {items, taken: item ? [item] : none};
    case 'pin':
    case 'unpin':
      if (item) items.set(name, {...item, pinned: entry.kind === 'pin'});
      return {items, taken: none};
    case 'scan':
      return {items, taken: scan(items, entry.policy, entry.asked)};
    case 'moved': {
      const child = played.get(place_name(list.id, list.node, entry.child));
      const moved = child?.handed ?? [], both = new Map(moved.map(one => [name_of(one.birth, one.key), one]));
      for (const [key, value] of items) both.set(key, value);
      return {items: both, taken: moved};
    }
    case 'drained':
      return {items: new Map(), taken: [...items.values()]};
    default:
      return {items: new Map(), taken: none};
  }
}

// A scan goes from the head with the next item in hand: an item that is rotated while others follow can be met again, and
// the scan ends after the item that was last when it was met.
function scan(items, policy, asked) {
  const freed = [], walk = items.entries();
  let next = walk.next();
  for (let budget = asked; budget > 0 && !next.done; budget--) {
    const [name, item] = next.value;
    next = walk.next();
    if (policy === 'halt' && item.pinned) break;
    if (policy === 'clock' && item.pinned) continue;
    if (policy === 'clock' && item.marked) {
      if (next.done) {
        items.set(name, {...item, marked: false});
        break;
      }
      items.delete(name);
      items.set(name, {...item, marked: false});
      continue;
    }
    items.delete(name);
    freed.push(item);
  }
  return freed;
}

/** What became of the object that each command added, by worker and command: the steps that moved it or took it away. */
export function fates(run) {
  const steps = new Map();
  for (const [name, {takes, moves}] of run.played)
    for (const part of [takes, moves])
      for (const [at, items] of part) {
        const step = run.lists.get(name)[at];
        for (const {worker, command} of items) {
          const serial = `${worker}.${command}`;
          if (steps.has(serial))
            steps.get(serial).push(step);
          else
            steps.set(serial, [step]);
        }
      }
  for (const own of steps.values()) own.sort((one, other) => one.at - other.at);
  return steps;
}
