// The bits of lists: which are set during a run as far as its report tells it, and which are lost at its end.

import {place_name} from './replay.mjs';

/** Whether the bit of an id is set in sixteen hexadecimal digits, those of the unit of 64 ids that has the id. */
export const has_bit = (bits, id) => ((parseInt(bits[15 - ((id & 63) >> 2)], 16) >> (id & 3)) & 1) === 1;

/** The cache that each id has at the end of a run, by id; an id that no cache has isn't there. */
export function caches_at_end(report) {
  const caches = new Map();
  for (const entry of report.pool)
    if (entry.kind === 'registered')
      caches.set(entry.id, entry.cache);
    else
      caches.delete(entry.id);
  return caches;
}

/**
 * The lists that lost their bits: below the root, with objects at the end, of an id that a cache has then, and with a clear
 * bit. Each has its place, its cache, and the lines of the report on which the list and its bit stand.
 */
export function lost_bits(report) {
  const caches = caches_at_end(report), printed = new Map();
  for (const bits of report.bits) printed.set(`${bits.node} ${bits.group} ${bits.unit}`, bits);
  const lost = [];
  for (const {id, node, group, items, line} of report.lists) {
    if (group === 0 || !items.length || !caches.has(id)) continue;
    const bits = printed.get(`${node} ${group} ${id >> 6}`) ?? null;
    if (bits && has_bit(bits.bits, id)) continue;
    lost.push({
      place: place_name(id, node, group),
      id,
      node,
      group,
      cache: caches.get(id),
      objects: items.length,
      line,
      bits
    });
  }
  return lost;
}

/**
 * When the bit of each list below the root was set, by place: spans from 0 to the number of steps, each `set`, `clear`,
 * `unsure` or `lost`. Bits have no journal. A set is known by the add that filled the list, by the move that did, and by a walk that set
 * it again; a clear by a walk that cleared it; and a map shows what was there when it was loaded. Where a map shows otherwise
 * than the steps before it in this row, the bit isn't known from the change before to the next one.
 */
export function bit_spans({row, graph, report, lost}) {
  const changes = new Map(), shown = new Map(), places = new Map(), spans = new Map();
  for (const list of report.lists) {
    if (list.group === 0) continue;
    const name = place_name(list.id, list.node, list.group), unit = `${list.node} ${list.group} ${list.id >> 6}`;
    places.set(unit, [...(places.get(unit) ?? []), {name, id: list.id}]);
    changes.set(name, []);
    shown.set(name, []);
  }
  const look = (at, {node, group, unit, bits}) => {
    for (const {name, id} of places.get(`${node} ${group} ${unit}`) ?? [])
      shown.get(name).push({at, is_set: has_bit(bits, id)});
  };
  const slack = slack_of(graph);
  for (const step of row) {
    if (step.on === 'map') look(step.at, step);
    if ((step.on === 'set' || step.on === 'clear') && changes.has(step.list))
      changes.get(step.list).push({to: step.on, ...slack.get(step)});
  }
  for (const bits of report.bits) look(row.length, bits);
  const last = new Set(lost.map(one => one.place));
  for (const [name, own] of changes) spans.set(name, spans_of(own, shown.get(name), row.length, last.has(name)));
  return spans;
}

// Between which places of the row each step that sets or clears a bit may stand, all other steps being where they are.
function slack_of(graph) {
  const slack = new Map();
  for (const step of graph.steps)
    if (step.on === 'set' || step.on === 'clear')
      slack.set(step, {at: step.at, after: step.at - 1, before: step.at + 1});
  for (let edge = 0; edge < graph.edges; edge++) {
    const one = graph.steps[graph.from[edge]], other = graph.steps[graph.to[edge]];
    const early = slack.get(one), late = slack.get(other);
    if (early) early.next = Math.min(early.next ?? Infinity, other.at);
    if (late) late.last = Math.max(late.last ?? -1, one.at);
  }
  for (const [step, one] of slack) {
    one.after = one.last ?? step.at - 1;
    one.before = Math.min(one.next ?? step.at + 1, graph.steps.length);
  }
  return slack;
}

function spans_of(changes, shown, steps, is_lost) {
  const spans = [];
  let from = 0, state = 'clear', next = 0;
  const until = (to, now) => {
    if (to <= from) return;
    const first = next;
    while (next < shown.length && shown[next].at <= to) next += 1;
    const seen = shown.slice(first, next), fits = seen.filter(({is_set}) => (now === 'set') === is_set);
    // A lost bit was there when it was last seen, and isn't at the end.
    if (is_lost && to === steps) {
      const known = now === 'set' ? Math.max(from, ...fits.map(({at}) => at)) : from;
      if (known > from) spans.push({from, to: known, state: now});
      spans.push({from: known, to, state: 'lost'});
    } else
      spans.push({from, to, state: fits.length < seen.length ? 'unsure' : now});
    from = to;
  };
  for (const {to, after, before} of changes) {
    if (to === state) continue;
    until(after + 1, state);
    until(before - 1, 'unsure');
    state = to;
  }
  until(steps, state);
  return merged(spans);
}

function merged(spans) {
  const kept = [];
  for (const span of spans) {
    const last = kept[kept.length - 1];
    if (last?.state === span.state)
      last.to = span.to;
    else
      kept.push({...span});
  }
  return kept;
}
