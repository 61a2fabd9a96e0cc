// Deferred work: an order of the takes and gives at each place in which each take took what was given since the take before.

import {place_name} from './replay.mjs';

const WHOLE = 2n ** 64n;

// How many states of one place are looked at, and of all places, before an order is left undecided.
const MOST_STATES = 60000, MOST_OF_ALL = 300000, MOST_CLOCKS = 3e7;

/**
 * Whether each pool is flat, so that its units and its deferred word stand at node 0. A report tells it without its script if it
 * matters: a flat pool's passes at another node count units, and no units are printed there.
 */
export function flat_pools(report, script) {
  if (script) return script.pools.map(pool => pool.flat);
  const printed = new Set(report.units.map(({pool, node}) => `${pool} ${node}`)), flat = report.pools.map(() => false);
  for (const {plain} of report.commands)
    for (const {passes, node} of plain)
      for (const {pool, version} of passes)
        if (node > 0 && version > 0 && !printed.has(`${pool} ${node}`)) flat[pool] = true;
  return flat;
}

/** What is printed as deferred at the end, by place. */
export function left_at_end(report) {
  const left = new Map();
  for (const {id, node, group, amount} of report.deferred) left.set(place_name(id, node, group), amount);
  for (const {pool, node, amount} of report.pool_deferred) left.set(`${pool} ${node}`, amount);
  return left;
}

/** The places, of lists and of pools, at which the report tells of any deferred work. */
export function deferring_places(report, flat) {
  const places = new Set([...left_at_end(report)].filter(([, amount]) => amount > 0n).map(([name]) => name));
  const note = (name, ...amounts) => {
    if (amounts.some(amount => amount > 0n)) places.add(name);
  };
  for (const {walks, carries, plain} of report.commands) {
    for (const {looks, node, group} of walks)
      for (const {id, pass} of looks)
        if (pass) note(place_name(id, node, group), pass.nr, pass.next);
    for (const {id, node, group, amount} of carries)
      for (const at of [group, report.parents[group]]) note(place_name(id, node, at), amount);
    for (const {passes, node} of plain)
      for (const {pool, pass} of passes)
        if (pass) note(`${pool} ${flat[pool] ? 0 : node}`, pass.nr, pass.next);
  }
  return places;
}

/**
 * Puts the takes and gives of each place in order, given a row of all steps: `chains`, a row of steps by place; `open`, how many
 * places were left undecided; or `stuck`, the place whose steps have no order, and how far one goes.
 */
export function order_deferred(run, row, places = [...run.deferred.keys()]) {
  const clocks = clocks_of(run, row), chains = [];
  let states = 0, open = 0;
  for (const place of places) {
    const steps = run.deferred.get(place), left = run.left.get(place) ?? 0n, search = new Search(steps, left, clocks),
          most = Math.min(MOST_STATES, MOST_OF_ALL - states), chain = search.order(most);
    states += search.seen.size;
    if (chain)
      chains.push(chain);
    else if (search.seen.size > most)
      open += 1;
    else
      return {stuck: {place, left, all: steps.length, ...search.furthest}};
  }
  return {chains, open};
}

// For each take and give: how many of those that each worker makes must come before it, by what else the report tells.
function clocks_of({graph, deferred}, row) {
  const counts = new Map(), turns = new Map(), before = new Map();
  const steps = [...deferred.values()].flat().sort((one, other) => one.at - other.at);
  for (const step of steps) {
    const turn = (counts.get(step.worker) ?? 0) + 1;
    counts.set(step.worker, turn);
    turns.set(step, turn);
  }
  const workers = [...counts.keys()], wide = workers.length;
  if (wide < 2 || wide * graph.steps.length > MOST_CLOCKS) return {turns, before};
  const place = new Map(workers.map((worker, at) => [worker, at])), {first, edges} = graph.outgoing();
  const clocks = new Int32Array(wide * graph.steps.length);
  for (const {index} of row) {
    const step = graph.steps[index], from = index * wide;
    if (turns.has(step)) {
      before.set(step, new Map(workers.map((worker, at) => [worker, clocks[from + at]])));
      clocks[from + place.get(step.worker)] = turns.get(step);
    }
    for (let i = first[index]; i < first[index + 1]; i++) {
      const to = graph.to[edges[i]] * wide;
      for (let at = 0; at < wide; at++)
        if (clocks[from + at] > clocks[to + at]) clocks[to + at] = clocks[from + at];
    }
  }
  return {turns, before};
}

// A search for an order of the steps of one place. A state is how many of its steps each worker has made; what is deferred
// then follows from it. The search goes by the row of all steps first, so that it seldom goes back.
class Search {
  constructor(steps, left, clocks) {
    Object.assign(this, {left, clocks, seen: new Set(), furthest: null});
    const own = new Map();
    for (const step of [...steps].sort((one, other) => one.at - other.at))
      if (own.has(step.worker))
        own.get(step.worker).push(step);
      else
        own.set(step.worker, [step]);
    this.rows = [...own.values()];
    this.all = steps.length;
    this.waits = new Map(steps.map(step => [step, this.waits_of(step)]));
  }

  // The workers' steps at this place that must come before a step, as pairs of a row and a count.
  waits_of(step) {
    const before = this.clocks.before.get(step), waits = [];
    if (!before) return waits;
    this.rows.forEach((row, at) => {
      const bound = before.get(row[0].worker) ?? 0;
      let count = 0;
      while (count < row.length && this.clocks.turns.get(row[count]) <= bound) count += 1;
      if (count && row[0].worker !== step.worker) waits.push([at, count]);
    });
    return waits;
  }

  /** The order, or null: there is none, or more than so many states were seen. */
  order(most) {
    const path = [], frames = [this.frame(this.rows.map(() => 0), 0n, 0)];
    while (frames.length) {
      const frame = frames[frames.length - 1];
      if (frame.done === this.all && frame.value === this.left) return path;
      const next = frame.choices.shift();
      if (next === undefined) {
        frames.pop();
        path.pop();
        continue;
      }
      const {at, step} = next, made = [...frame.made];
      made[at] += 1;
      const name = made.join(' ');
      if (this.seen.has(name)) continue;
      this.seen.add(name);
      if (this.seen.size > most) return null;
      path.push(step);
      frames.push(this.frame(made, step.takes ? 0n : (frame.value + step.amount) % WHOLE, frame.done + 1));
    }
    return null;
  }

  frame(made, value, done) {
    const next = this.rows.map((row, at) => ({at, step: row[made[at]]})).filter(({step}) => step !== undefined);
    const free = next.filter(({step}) => this.waits.get(step).every(([at, count]) => made[at] >= count));
    let choices = free.filter(({step}) => !step.takes || step.amount === value);
    choices.sort((one, other) => one.step.at - other.step.at);
    // A take of nothing where nothing is deferred changes nothing, and so is made at once.
    const idle = choices.find(({step}) => step.takes && step.amount === 0n);
    if (idle) choices = [idle];
    if (!this.furthest || done > this.furthest.done)
      this.furthest = {done, value, next: next.map(({step}) => step), rows: this.rows, made};
    return {made, value, done, choices};
  }
}
