// What one command does, step by step: its plan, in the order in which a worker takes the steps.

import {place_name} from './replay.mjs';

/** The steps of a command in order, the operations on usages that are in no order, and the lookups that held a cache. */
export function plan_of(run, command, who, written) {
  const plan = new Plan(run, command, who, written);
  plan.make();
  return plan.resolved();
}

const PUTS = ['added', 'exists', 'over'], SHOWN = ['nocache', 'noid', 'alreadyregistered'];

class Plan {
  constructor(run, command, who, written) {
    Object.assign(this, {run, command, who, written});
    this.mine = run.mine.get(who.worker * 2 ** 32 + who.command) ?? {entries: [], uses: []};
    this.answer = command.answer[0];
    this.is_put = written ? written.kind === 'put' : PUTS.includes(this.answer) || this.mine.uses.some(use => use.up);
    this.tenant = this.mine.entries.find(entry => entry.birth !== undefined) ?? null;
    this.steps = [];
    this.held = [];
  }

  number(at) {
    return Number(this.command.answer[at]);
  }

  step(step) {
    step.worker = this.who.worker;
    step.command = this.who.command;
    return this.run.add(step);
  }

  then(step) {
    if (step && !this.is_of_another(step)) this.steps.push(step);
    return step;
  }

  // Whether another command cited the step already, which is told as a fault of the answers.
  is_of_another({worker, command}) {
    return worker !== undefined && (worker !== this.who.worker || (command ?? this.who.command) !== this.who.command);
  }

  /** An operation on a usage that the worker makes here; which it is, is found once all are known. */
  use(group, up) {
    this.steps.push({group, up, is_use: true});
  }

  /** The operations of a charge or an uncharge: a group and those above it, up to `last`. */
  uses(group, up, last = 0) {
    for (let at = group;; at = this.run.report.parents[at]) {
      this.use(at, up);
      if (at === last || at === 0) return;
    }
  }

  make() {
    const {command, run} = this;
    this.word();
    if (this.is_put)
      this.rounds();
    else
      command.walks.forEach(walk => this.walk(walk));
    this.find();
    if (this.answer === 'notmade') {
      const step = this.then(this.step({on: 'word', group: this.number(1), state: 'notmade'}));
      run.before(step, run.made.get(this.number(1)), 'state');
    }
    if (this.tenant)
      this.entry();
    else
      this.mine.entries.filter(entry => entry.on === 'units').forEach(entry => this.then(entry));
    if (command.isolation) this.isolate();
    if (command.find) this.held.push({id: command.find.id, number: command.find.number, position: this.steps.length});
    if (this.answer === 'dropped') this.uses(this.tenant?.birth ?? 0, false);
    if (this.is_put && !['added', 'over', 'offline', 'notmade'].includes(this.answer) && this.charged)
      this.uses(this.group, false);
    this.tree();
    this.registration();
    if (this.answer === 'full')
      this.seen(run.units.get(`${this.number(1)} ${this.number(2)}`) ?? [], this.number(3), 'unitsseen', 'count', {});
    command.plain.forEach(walk => this.plain(walk));
  }

  /** The load of the command's own group word. */
  word() {
    const {run, answer} = this, found = this.command.find !== null;
    const uses = this.mine.uses.filter(use => use.up),
          deepest =
              uses.length ? uses.reduce((one, other) => (other.group > one.group ? other : one)).group : undefined;
    this.group = this.written?.group ?? this.tenant?.birth ?? deepest;
    if (answer === 'offline' && !this.command.walks.length) {
      const entry = run.tree[this.number(1)],
            step = this.then(this.step({on: 'word', group: entry.group, state: 'offline'}));
      run.before(entry, step, 'state');
      return;
    }
    const is_tenant =
        this.tenant || this.is_put || found || (this.written?.key !== undefined || this.written?.kind === 'isolate');
    const was_loaded =
        found || this.mine.uses.length > 0 || ['over', 'nocache'].includes(answer) || this.tenant !== null;
    if (!is_tenant || !was_loaded || this.group === undefined) return;
    const step = this.then(this.step({on: 'word', group: this.group, state: 'online'}));
    run.before(step, run.begun.get(this.group), 'state');
    run.before(run.made.get(this.group), step, 'state');
  }

  /** A put's charges: each that is refused is taken back, and a round of walks comes after it. */
  rounds() {
    const {walks} = this.command;
    for (let at = 0; at < walks.length;) {
      const {group: refusing, priority} = walks[at];
      if (this.group !== undefined) {
        this.uses(this.group, true, refusing);
        this.uses(this.group, false, refusing);
      }
      for (; at < walks.length && walks[at].priority === priority; at++) this.walk(walks[at]);
    }
    const cut = this.answer === 'memory' && !this.command.find;
    if (this.group === undefined || cut || this.answer === 'offline' || this.mine.uses.length === 0) return;
    if (this.answer === 'over') {
      this.uses(this.group, true, this.number(1));
      this.uses(this.group, false, this.number(1));
      return;
    }
    this.uses(this.group, true);
    this.charged = true;
  }

  walk(walk) {
    const {run} = this, what = {walk: walk.number, group: walk.group, node: walk.node};
    this.then(this.step(
        {on: 'walk', ...what, priority: walk.priority, kind: walk.kind, answer: walk.answer, freed: walk.freed}));
    if (walk.group !== 0 && (walk.answer !== 'memory' || walk.looks.length)) {
      const state = walk.answer === 'offline' ? 'offline' : 'online',
            step = this.then(this.step({on: 'word', ...what, state}));
      if (state === 'offline')
        run.before(run.tree[walk.entry], step, 'state');
      else
        run.before(step, run.begun.get(walk.group), 'state');
    }
    for (const look of walk.looks)
      if (look.map === undefined)
        this.attempt(walk, look, what);
      else
        this.map(look, what);
  }

  map(look, what) {
    const {bits} = this.run, step = this.then(this.step({on: 'map', ...what, unit: look.map, bits: look.bits}));
    // The places whose bit this worker set last itself, and which the map shows clear.
    step.own = [];
    for (let id = 64 * look.map; id < Math.min(64 * look.map + 64, this.run.report.ids); id++) {
      const list = place_name(id, what.node, what.group), own = bits.own.get(`${this.who.worker} ${list}`);
      if (own && !((parseInt(look.bits[15 - ((id & 63) >> 2)], 16) >> (id & 3)) & 1)) step.own.push({step: own, list});
    }
    bits.maps.push(step);
  }

  attempt(walk, look, what) {
    if (look.number === undefined) return;
    const list = place_name(look.id, walk.node, walk.group), {outcome} = look;
    const lookup = this.then(this.lookup(look.id, look.number, {...what, outcome}));
    if (outcome.startsWith('gone')) {
      this.gone(look, list, what, lookup);
      return;
    }
    this.count(list, look.counts[0], what);
    if (look.counts.length > 1) {
      this.clear(list, what);
      this.count(list, look.counts[1], what);
    }
    if (look.pass) this.takes('take', list, look.pass.nr);
    for (const scan of this.run.scans.get(`${this.who.worker} w${walk.number} ${list}`) ?? []) this.scan(scan);
    if (look.pass?.closed) this.found_closed(list, what);
    if (look.pass) this.gives(list, look.pass.next);
    if (outcome === 'restored') this.set_again(list, what);
    this.held.push({id: look.id, number: look.number, position: this.steps.length});
  }

  /** All that is deferred at a place is taken: by a pass, or to carry it to the parent's. */
  takes(on, list, amount) {
    return this.then(this.run.defer({on, list, amount, takes: true, ...this.who}));
  }

  gives(list, amount) {
    if (amount > 0n) this.then(this.run.defer({on: 'give', list, amount, takes: false, ...this.who}));
  }

  gone(look, list, what, lookup) {
    if (look.outcome === 'gone root') return;
    const {run} = this,
          turns =
              run.pool.filter(step => step.id === look.id && step.kind === 'registered' && step.number > look.number);
    this.clear(list, what);
    const step = this.then(this.step({on: 'load', id: look.id, live: look.outcome === 'gone set', ...what}));
    if (look.outcome === 'gone set') {
      run.before(turns[0], step, 'state');
      this.set_again(list, what);
      run.bits.again.add(list);
    }
    lookup.then = look.outcome;
  }

  clear(list, what) {
    this.run.note_clear(this.then(this.step({on: 'clear', list, ...what})), this.who.worker);
  }

  set_again(list, what) {
    this.run.note_set(this.then(this.step({on: 'set', list, ...what})), this.who.worker);
  }

  lookup(id, number, what) {
    const step = this.step({on: 'lookup', id, number, ...what});
    this.run.lookups[id] ??= [];
    this.run.lookups[id][number] = step;
    return step;
  }

  count(list, version, what) {
    this.seen(this.run.lists.get(list) ?? [], version, 'count', 'count', {list, ...what});
  }

  /** What showed so many entries of a journal stands behind the last of them and before the next. */
  seen(row, entries, on, why, what) {
    const step = this.then(this.step({on, entries, ...what}));
    this.run.before(row[entries - 1], step, why);
    this.run.before(step, row[entries], why);
    return step;
  }

  /** A scan, and the uncharges of what it freed. */
  scan(scan) {
    this.then(scan);
    for (const {birth} of this.run.played.get(scan.list)?.takes.get(scan.entry) ?? []) this.uses(birth, false);
  }

  find() {
    const {run, command} = this;
    if (command.find) {
      const {id, number, entry} = command.find;
      // The journal may have had more entries, since what was found before is found again without it.
      run.before(run.pool[entry - 1], this.then(this.step({on: 'poolknown', entries: entry})), 'seen');
      this.then(this.lookup(id, number, {}));
    } else if (SHOWN.includes(this.answer))
      this.seen(run.pool, this.number(1), 'poolseen', 'seen', {});
  }

  /** A tenant's entry: it stands on the first list at or above its group that isn't closed. */
  entry() {
    const {run, tenant} = this, [id, node, group] = tenant.list.split(' ').map(Number);
    for (let at = tenant.birth; at > group; at = run.report.parents[at])
      this.found_closed(place_name(id, node, at), {});
    this.then(tenant);
    if (!run.played.get(tenant.list).fills.has(tenant.entry) || tenant.kind !== 'add' || group === 0) return;
    const set = this.then(run.sets_bit(tenant.list, tenant.entry, this.who));
    set.under = tenant.entry;
    run.note_set(set, this.who.worker);
  }

  isolate() {
    const {run, command, who} = this, {id, node, group} = command.isolation;
    const number = run.isolated[who.worker] = (run.isolated[who.worker] ?? -1) + 1;
    const list = place_name(id, node, group);
    for (const scan of run.scans.get(`${who.worker} i${number} ${list}`) ?? []) this.scan(scan);
    if (command.isolation.end === 'closed') this.found_closed(list, {});
  }

  /** A list that was found closed, by what closed it. */
  found_closed(list, what) {
    const row = this.run.lists.get(list), last = row?.[row.length - 1],
          step = this.then(this.step({on: 'shut', list, ...what}));
    if (last?.kind === 'closed') this.run.before(last, step, 'shut');
  }

  /** Taking a group offline, making one, and what was seen of the journal of both. */
  tree() {
    const {run, answer} = this;
    if (answer === 'haschildren') this.seen(run.tree, this.number(2), 'treeseen', 'seen', {});
    if (answer === 'made') this.then(run.tree[this.number(1)]);
    const offlines = (answer === 'done' && this.command.answer.length === 4) || answer === 'alreadydone';
    if (answer === 'done' && offlines) {
      const done = run.tree[this.number(1)];
      if (this.is_alone(done.group)) this.hand_over(done.group);
    }
    if (offlines) this.carries(run.tree[this.number(1)].group);
    if (answer === 'done' && offlines) this.then(run.tree[this.number(1)]);
    if (answer === 'alreadydone' || answer === 'alreadymade') {
      const step = this.then(this.step({on: 'treeseen', entries: this.number(1) + 1, shown: this.number(1)}));
      run.before(run.tree[this.number(1)], step, 'state');
    }
  }

  /** The deferred work of a group is carried to its parent's. Whether an offline that came too late took, only a carry tells. */
  carries(group) {
    const {report} = this.run, amounts = new Map();
    if (this.answer === 'alreadydone' && !this.command.carries.length) return;
    for (const {id, node, group: at, amount} of this.command.carries) amounts.set(place_name(id, node, at), amount);
    for (let id = 0; id < report.ids; id++)
      for (let node = 0; node < report.nodes; node++) {
        const list = place_name(id, node, group), amount = amounts.get(list) ?? 0n;
        this.takes(amount > 0n ? 'carry' : 'take', list, amount);
        this.gives(place_name(id, node, report.parents[group]), amount);
      }
  }

  /** Whether no other command can have had part in taking a group offline. */
  is_alone(group) {
    const {run, who} = this;
    return run.report.commands.every(({worker, number, answer, find}) => {
      if (worker === who.worker && number === who.command) return true;
      const written = run.script?.workers[worker]?.[number];
      if (written && (written.kind !== 'offline' || written.group !== group)) return true;
      if (answer[0] === 'alreadydone') return run.tree[Number(answer[1])].group !== group || worker === who.worker;
      return !(answer[0] === 'memory' || answer[0] === 'worn') || answer.length > 2 || find !== null;
    });
  }

  /** The group begins to go offline; on each list it and what hangs below it unmade is closed, the highest number first. */
  hand_over(group) {
    const {run} = this, {report} = run;
    // A group that was never made goes with the nearest group above it that went offline.
    const is_with = at => {
      if (run.begun.has(at)) return at === group;
      let up = report.parents[at];
      while (up > group && !run.begun.has(up)) up = report.parents[up];
      return at > group && up === group;
    };
    const groups = report.groups.map((_, number) => number).filter(is_with).reverse();
    this.then(run.begun.get(group));
    for (let id = 0; id < report.ids; id++)
      for (let node = 0; node < report.nodes; node++)
        for (const at of groups) {
          const moved = run.moved.get(place_name(id, node, at));
          if (!moved) continue;
          this.then(moved);
          this.then(moved.closes);
          if (moved.raises) run.note_set(this.then(moved.raises), this.who.worker);
        }
  }

  registration() {
    const {run, answer} = this;
    if (answer === 'registered') this.then(run.pool[this.number(2)]);
    if (answer !== 'freed' && answer !== 'half') return;
    const ending = run.pool[this.number(2)];
    this.then(ending);
    ending.wait = this.then(this.step({on: 'wait', id: this.number(1)}));
    const place = step => step.list.split(' ').map(Number);
    const drained = this.mine.entries.filter(entry => entry.kind === 'drained')
                        .sort((one, other) => place(one)[1] - place(other)[1] || place(other)[2] - place(one)[2]);
    drained.forEach(entry => this.then(entry));
    if (answer === 'freed') this.then(run.pool.slice(this.number(2) + 1).find(entry => entry.id === this.number(1)));
    for (const entry of drained)
      for (const {birth} of run.played.get(entry.list)?.takes.get(entry.entry) ?? []) this.uses(birth, false);
  }

  /** A walk over the pools of a node, which stand at node 0 where they are flat. */
  plain(walk) {
    const {run} = this;
    this.then(
        this.step({on: 'plain', plain: walk.number, node: walk.node, priority: walk.priority, freed: walk.freed}));
    for (const pass of walk.passes) {
      const list = `${pass.pool} ${run.flat[pass.pool] ? 0 : walk.node}`;
      this.seen(run.units.get(list) ?? [], pass.version, 'unitscount', 'count', {list});
      if (pass.pass) this.takes('take', list, pass.pass.nr);
      for (const step of run.reclaims.get(`${this.who.worker} ${walk.number} ${pass.pool}`) ?? []) this.then(step);
      if (pass.pass) this.gives(list, pass.pass.next);
    }
  }

  /** The operations on usages are those of the command by group, in order; where they don't fit, they are in no order. */
  resolved() {
    const by_group = new Map(), next = new Map();
    for (const use of this.mine.uses) this.run.gather(by_group, use.group, use);
    let fit = true, taken = 0;
    const steps = this.steps.map(step => {
      if (!step.is_use) return step;
      const at = next.get(step.group) ?? 0, use = by_group.get(step.group)?.[at];
      next.set(step.group, at + 1);
      taken += 1;
      if (use?.up !== step.up) fit = false;
      return use;
    });
    if (fit && taken === this.mine.uses.length) return {steps, held: this.held, loose: []};
    const kept = this.steps.map(step => (step.is_use ? null : step));
    return {steps: kept, held: this.held, loose: this.mine.uses};
  }
}
