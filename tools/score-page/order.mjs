// Steps, what must come before what and why, one order of all where there is one, and else the shortest cycle.

/** Why one step comes before another. */
export const WHY = {
  own: 'the worker takes them in this order',
  journal: 'that is the order of the journal',
  count: 'that is how many entries it showed',
  lookup: 'the lookups of an id are numbered',
  range: 'the registration names the lookup from which, or before which, it stands',
  seen: 'that is how many registrations it showed',
  state: 'that is the state of the group that was found',
  use: 'the operations on a usage are numbered',
  held: 'unregistering waits until the cache is let go',
  move: 'a list is closed by what moves it',
  shut: 'the list below was found closed',
  room: 'the list is in hand until its bit is set',
  bit: 'that is what the map showed of the bit',
  sweep: 'a sweep begins when all workers are done',
  defer: 'a take takes all that was deferred until then, and nothing else',
};
const REASONS = Object.keys(WHY), NUMBER = Object.fromEntries(REASONS.map((why, number) => [why, number]));

export class Graph {
  constructor() {
    this.steps = [];
    this.edges = 0;
    this.from = new Int32Array(1024);
    this.to = new Int32Array(1024);
    this.why = new Uint8Array(1024);
  }

  add(step) {
    step.index = this.steps.length;
    step.at = -1;
    this.steps.push(step);
    return step;
  }

  before(one, other, why) {
    if (!one || !other || one === other) return;
    if (this.edges === this.from.length) {
      for (const part of ['from', 'to', 'why']) {
        const wider = new this[part].constructor(this.edges * 2);
        wider.set(this[part]);
        this[part] = wider;
      }
    }
    this.from[this.edges] = one.index;
    this.to[this.edges] = other.index;
    this.why[this.edges++] = NUMBER[why];
  }

  /** Each step's edges as a stretch of one array: those of step i are `first[i]` to `first[i + 1]` of `edges`. */
  outgoing() {
    const count = this.steps.length, first = new Int32Array(count + 1), edges = new Int32Array(this.edges);
    for (let e = 0; e < this.edges; e++) first[this.from[e] + 1]++;
    for (let i = 0; i < count; i++) first[i + 1] += first[i];
    const next = first.slice(0, count);
    for (let e = 0; e < this.edges; e++) edges[next[this.from[e]]++] = e;
    return {first, edges};
  }
}

/** All steps in one row, each with its place in it as `at`: `row`; or null, and `left`, those that stand in no order. */
export function order(graph) {
  const queues = new Queues(graph), row = [];
  for (let step = queues.take(); step; step = queues.take()) {
    step.at = row.length;
    row.push(step);
    queues.release(step);
  }
  if (row.length === graph.steps.length) return {row, left: []};
  const left = graph.steps.filter(step => step.at < 0);
  for (const step of row) step.at = -1;
  return {row: null, left};
}

/**
 * The steps that may come next. A command goes on as far as it can, then the worker that is least far.
 *
 * Steps that no command takes are of two sorts: what stands before all workers goes as soon as it can, and what several
 * commands may have had part in, as the handing over of a list, as late as it can.
 */
class Queues {
  constructor(graph) {
    Object.assign(this, graph.outgoing(), {graph, soon: [], late: [], ready: new Map(), current: null, ended: true});
    this.waits = new Int32Array(graph.steps.length);
    for (let e = 0; e < graph.edges; e++) this.waits[graph.to[e]]++;
    for (let at = graph.steps.length - 1; at >= 0; at--)
      if (!this.waits[at]) this.put(graph.steps[at]);
  }

  put(step) {
    if (step.worker === undefined)
      (step.on === 'pool' || step.on === 'barrier' ? this.soon : this.late).push(step);
    else if (this.ready.has(step.worker))
      this.ready.get(step.worker).push(step);
    else
      this.ready.set(step.worker, [step]);
  }

  take() {
    if (this.soon.length) return this.soon.pop();
    if (this.ended || !this.ready.get(this.current)?.length) this.current = this.least_far();
    const step = this.current === null ? this.late.pop() : this.ready.get(this.current).pop();
    if (this.current !== null) this.ended = step.on === 'end';
    return step;
  }

  /** A step was taken: what waited for it alone may come next. */
  release(step) {
    for (let i = this.first[step.index]; i < this.first[step.index + 1]; i++) {
      const other = this.graph.to[this.edges[i]];
      if (--this.waits[other] === 0) this.put(this.graph.steps[other]);
    }
  }

  least_far() {
    let best = null, least = Infinity;
    for (const [worker, queue] of this.ready) {
      if (!queue.length) continue;
      const step = queue[queue.length - 1], far = (step.command ?? 0) + (this.is_early(step) ? 1e9 : 0);
      if (far < least || (far === least && worker < best)) {
        least = far;
        best = worker;
      }
    }
    return best;
  }

  // A command that could only begin and not go on begins later, where another worker can go on.
  is_early(step) {
    if (step.on !== 'start') return false;
    for (let i = this.first[step.index]; i < this.first[step.index + 1]; i++) {
      const edge = this.edges[i];
      if (this.graph.why[edge] === NUMBER.own && this.waits[this.graph.to[edge]] > 1) return true;
    }
    return false;
  }
}

// Steps that follow each other for one of these reasons are told as one: the first comes before the last.
const CHAINS = {
  own: 1,
  journal: 2,
  lookup: 3,
  use: 4
},
      MODES = 5, MOST_VISITS = 3e7;
const CHAIN = Uint8Array.from(REASONS, why => CHAINS[why] ?? 0);

/**
 * The shortest cycle among the steps that stand in no order, by how many facts tell it: each step, why it comes before the
 * next, and whether the search was carried through.
 */
export function shortest_cycle(graph, left) {
  const search = new Search(graph, left);
  let best = null;
  for (const start of search.members) {
    const found = search.cycle_at(start, best ? best.facts - 1 : Infinity);
    if (found) best = found;
    if (best?.facts === 2 || (best && search.visits > MOST_VISITS)) break;
  }
  const facts = best.path.map(edge => ({step: graph.steps[graph.from[edge]], reason: REASONS[graph.why[edge]]}));
  return {facts: merged(facts), is_shortest: search.visits <= MOST_VISITS};
}

// Facts of one chain in a row become one, around the cycle too.
function merged(facts) {
  const chained = at =>
      CHAINS[facts[at].reason] && facts[at].reason === facts[(at + facts.length - 1) % facts.length].reason;
  const kept = facts.filter((_, at) => !chained(at));
  return (kept.length ? kept : facts.slice(0, 1)).map(fact => ({...fact, why: WHY[fact.reason]}));
}

class Search {
  constructor(graph, left) {
    Object.assign(this, graph.outgoing(), {graph, visits: 0});
    Object.assign(this, knots(graph, left, this.first, this.edges));
    // By step and chain: the search that met it, and the one that went on from it.
    this.met = new Int32Array(graph.steps.length * MODES).fill(-1);
    this.settled = new Int32Array(graph.steps.length * MODES).fill(-1);
    this.by = new Int32Array(graph.steps.length * MODES);
    this.from_mode = new Uint8Array(graph.steps.length * MODES);
  }

  /** The cycle through a step with the fewest facts, where it has no more than `most`. */
  cycle_at(start, most) {
    const {graph, knot} = this;
    let ring = [start * MODES];
    for (let facts = 1; ring.length && facts <= most + 1; facts++) {
      const further = [];
      let found = null;
      // What the same chain reaches costs nothing more, and is gone through in this turn.
      for (let at = 0; at < ring.length; at++) {
        const state = ring[at], index = Math.floor(state / MODES), mode = state % MODES;
        if (this.settled[state] === start) continue;
        this.settled[state] = start;
        for (let i = this.first[index]; i < this.first[index + 1]; i++) {
          const edge = this.edges[i], other = graph.to[edge], chain = CHAIN[graph.why[edge]],
                is_free = chain !== 0 && chain === mode;
          if (knot[other] !== knot[start] || (is_free && facts === 1)) continue;
          this.visits += 1;
          if (other === start && is_free) return {facts: facts - 1, path: this.path(start, state, edge)};
          if (other === start) {
            found ??= {facts, path: this.path(start, state, edge)};
            continue;
          }
          const next = other * MODES + chain;
          if (this.settled[next] === start || (this.met[next] === start && !is_free)) continue;
          this.met[next] = start;
          this.by[next] = edge;
          this.from_mode[next] = mode;
          if (is_free)
            ring.push(next);
          else
            further.push(next);
        }
      }
      if (found) return found.facts <= most ? found : null;
      ring = further;
    }
    return null;
  }

  path(start, state, edge) {
    const path = [edge];
    for (let at = state; at !== start * MODES;) {
      path.push(this.by[at]);
      at = this.graph.from[this.by[at]] * MODES + this.from_mode[at];
    }
    return path.reverse();
  }
}

// The knots of the steps left: two steps are of one knot where each must come before the other (Tarjan, without recursion).
function knots(graph, left, first, edges) {
  const count = graph.steps.length, number = new Int32Array(count), low = new Int32Array(count),
        knot = new Int32Array(count).fill(-1);
  const next = Int32Array.from(first), on_stack = new Uint8Array(count), stack = [], members = [];
  let numbers = 0;
  for (const {index: root} of left) {
    if (number[root]) continue;
    const path = [root];
    while (path.length) {
      const at = path[path.length - 1];
      if (!number[at]) {
        number[at] = low[at] = ++numbers;
        stack.push(at);
        on_stack[at] = 1;
      }
      if (next[at] < first[at + 1]) {
        const other = graph.to[edges[next[at]++]];
        if (!number[other])
          path.push(other);
        else if (on_stack[other])
          low[at] = Math.min(low[at], number[other]);
        continue;
      }
      path.pop();
      if (path.length) low[path[path.length - 1]] = Math.min(low[path[path.length - 1]], low[at]);
      if (low[at] !== number[at]) continue;
      const one = [];
      let top;
      do {
        top = stack.pop();
        on_stack[top] = 0;
        knot[top] = at;
        one.push(top);
      } while (top !== at);
      if (one.length > 1) members.push(one);
    }
  }
  members.sort((one, other) => one.length - other.length);
  return {knot, members: members.flat()};
}
