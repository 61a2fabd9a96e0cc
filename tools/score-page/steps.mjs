// All steps that a report tells, and what must come before what: journals, counts, lookups, usages, and each worker's commands.

import {deferring_places, flat_pools, left_at_end} from './deferred.mjs';
import {Graph} from './order.mjs';
import {plan_of} from './plans.mjs';
import {place_name, play} from './replay.mjs';

/** The steps of a report as a graph, beside what its lists held; the script, where there is one, tells of more steps. */
export function steps_of(report, script = null) {
  const run = new Run(report, script);
  run.journals();
  run.offlinings();
  for (const command of report.commands) run.command(command);
  run.lookups_in_order();
  run.maps();
  return run;
}

/** What is known of a report while its commands are gone through one by one, in the order of workers and commands. */
export class Run {
  constructor(report, script) {
    this.report = report;
    this.script = script;
    this.graph = new Graph();
    this.played = play(report);
    this.lists = new Map();
    this.units = new Map();
    this.pool = [];
    this.tree = [];
    // By worker and command: its entries and its operations on usages.
    this.mine = new Map();
    // By worker, walk and place: the scans; by worker, walk and pool: what was reclaimed.
    this.scans = new Map();
    this.reclaims = new Map();
    // By id, node and child: the entry that moved the child's list up.
    this.moved = new Map();
    this.lookups = report.lookups.map(() => []);
    this.waits = [];
    this.last_end = [];
    this.isolated = [];
    // Bits: by place the first step that set it, who cleared it, and what each worker last did to it.
    this.bits = {first: new Map(), clearers: new Map(), again: new Set(), own: new Map(), maps: []};
    this.begun = new Map();
    this.made = new Map();
    this.tree_done = new Map();
    // The places at which work was deferred, and the takes and gives there.
    this.flat = flat_pools(report, script);
    this.deferring = deferring_places(report, this.flat);
    this.deferred = new Map();
    this.left = left_at_end(report);
  }

  add(step) {
    return this.graph.add(step);
  }

  before(one, other, why) {
    this.graph.before(one, other, why);
  }

  /** A take or a give of deferred work, or null at a place where none was ever deferred. */
  defer(step) {
    if (!this.deferring.has(step.list)) return null;
    this.gather(this.deferred, step.list, this.add(step));
    return step;
  }

  own(worker, command) {
    const name = worker * 2 ** 32 + command;
    let mine = this.mine.get(name);
    if (!mine) this.mine.set(name, mine = {entries: [], uses: []});
    return mine;
  }

  row(steps) {
    for (let at = 1; at < steps.length; at++) this.before(steps[at - 1], steps[at], 'journal');
    return steps;
  }

  /** A step for each entry of each journal, and for each operation on a usage, in the order of their numbers. */
  journals() {
    const {report} = this;
    this.pool = this.row(report.pool.map((entry, number) => this.add({on: 'pool', entry: number, ...entry})));
    this.tree = this.row(report.tree.map((entry, number) => this.add({on: 'tree', entry: number, ...entry})));
    for (const step of this.tree)
      ({begin: this.begun, made: this.made, done: this.tree_done})[step.kind].set(step.group, step);
    for (const list of report.lists) {
      const name = place_name(list.id, list.node, list.group);
      const row =
          this.row(list.entries.map((entry, number) => this.add({on: 'list', list: name, entry: number, ...entry})));
      this.lists.set(name, row);
      row.forEach(step => this.note_entry(step, list));
    }
    for (const unit of report.units) {
      const row = this.row(unit.entries.map(
          (entry, number) => this.add({on: 'units', list: `${unit.pool} ${unit.node}`, entry: number, ...entry})));
      this.units.set(`${unit.pool} ${unit.node}`, row);
      for (const step of row) {
        if (step.kind === 'reclaim')
          this.gather(this.reclaims, `${step.worker} ${step.walk} ${unit.pool}`, step);
        else
          this.own(step.worker, step.command).entries.push(step);
      }
    }
    let last = null;
    for (const use of report.uses) {
      const step = this.add({on: 'use', ...use});
      if (last?.group === use.group) this.before(last, step, 'use');
      this.own(use.worker, use.command).uses.push(step);
      last = step;
    }
  }

  gather(map, name, step) {
    const row = map.get(name);
    if (row)
      row.push(step);
    else
      map.set(name, [step]);
  }

  note_entry(step, list) {
    if (step.kind === 'scan')
      this.gather(this.scans, `${step.worker} ${step.isolated ? 'i' : 'w'}${step.walk} ${step.list}`, step);
    else if (step.kind === 'moved')
      this.moved.set(place_name(list.id, list.node, step.child), step);
    else if (step.worker !== undefined)
      this.own(step.worker, step.command).entries.push(step);
  }

  /** A list is closed by what moves it, after its group began to go offline and before it is done. */
  offlinings() {
    for (const [name, moved] of this.moved) {
      const row = this.lists.get(name) ?? [], closed = row[row.length - 1];
      const ended = closed?.kind === 'closed' ? closed : null;
      this.before(this.begun.get(moved.child), moved, 'state');
      if (ended) {
        this.before(row[row.length - 2], moved, 'move');
        this.before(moved, ended, 'move');
      }
      this.before(ended ?? moved, this.tree_done.get(moved.child), 'state');
      const [, , parent] = moved.list.split(' ').map(Number);
      if (moved.objects > 0 && parent > 0) {
        moved.raises = this.sets_bit(moved.list, moved.entry, {});
        this.before(ended ?? moved, moved.raises, 'room');
        moved.raises.under = moved.entry;
        this.note_set(moved.raises);
      }
      moved.closes = ended;
    }
  }

  /** A step that sets the bit of a list's place, before the list's next entry. */
  sets_bit(list, entry, who) {
    const step = this.add({on: 'set', list, ...who});
    const row = this.lists.get(list);
    this.before(row[entry], step, 'room');
    this.before(step, row[entry + 1], 'room');
    return step;
  }

  /** Whether the bit of a place was set first here, and by whom it was set last. */
  note_set(step, worker) {
    if (worker !== undefined) this.bits.own.set(`${worker} ${step.list}`, step);
    const first = this.bits.first.get(step.list);
    if (!first || this.entry_before(step) < this.entry_before(first)) this.bits.first.set(step.list, step);
  }

  // A bit is set under an entry of its list; a bit that a walk sets again is none of these.
  entry_before(step) {
    return step.under ?? Infinity;
  }

  note_clear(step, worker) {
    this.bits.own.set(`${worker} ${step.list}`, null);
    let clearers = this.bits.clearers.get(step.list);
    if (!clearers) this.bits.clearers.set(step.list, clearers = new Set());
    clearers.add(worker);
  }

  command(command) {
    const who = {worker: command.worker, command: command.number};
    const written = this.script?.workers[who.worker]?.[who.command] ?? null;
    const start = this.add({on: 'start', ...who, answer: command.answer, text: written?.text});
    this.before(this.last_end[who.worker], start, 'own');
    const plan = plan_of(this, command, who, written), end = this.add({on: 'end', ...who, answer: command.answer});
    let now = start, which = 0;
    // What was done last under each lookup; their positions in the plan rise.
    const let_go = at => {
      while (which < plan.held.length && plan.held[which].position <= at) plan.held[which++].last = now;
    };
    plan.steps.forEach((step, at) => {
      let_go(at);
      if (!step) return;
      if (step.worker === undefined)
        Object.assign(step, who);
      else if (step.command === undefined)
        step.command = who.command;
      this.before(now, step, 'own');
      now = step;
    });
    let_go(Infinity);
    this.before(now, end, 'own');
    for (const step of plan.loose) {
      this.before(start, step, 'own');
      this.before(step, end, 'own');
    }
    this.waits.push(...plan.held);
    this.last_end[who.worker] = end;
    this.sweeps(command, start, end);
  }

  // A worker's answer to a sweep is its last, and comes after all workers' commands.
  sweeps(command, start, end) {
    this.barrier ??= this.has_sweep() ? this.add({on: 'barrier'}) : null;
    if (!this.barrier) return;
    if (this.lasts.get(command.worker) === command.number)
      this.before(this.barrier, start, 'sweep');
    else
      this.before(end, this.barrier, 'sweep');
  }

  has_sweep() {
    if (this.lasts) return false;
    this.lasts = new Map(this.report.commands.map(command => [command.worker, command.number]));
    return this.script ? this.script.sweep !== null :
                         this.report.commands.some(command => command.answer[0] === 'swept');
  }

  /** Lookups by their numbers, registrations where they name a lookup, and unregistering after what it waits for. */
  lookups_in_order() {
    this.lookups.forEach((row, id) => {
      let earlier = null;
      row.forEach(step => {
        this.before(earlier, step, 'lookup');
        earlier = step;
      });
      const turns = this.pool.filter(step => step.id === id && step.number !== undefined);
      for (const step of turns) {
        this.before(row[step.number - 1], step, 'range');
        this.before(step, row[step.number], 'range');
      }
      const ends = turns.filter(step => step.kind === 'unregistered');
      for (const held of this.waits) {
        if (held.id !== id) continue;
        const ending = ends.find(step => held.number < step.number);
        if (ending)
          this.before(held.last, ending.wait ?? this.pool.slice(ending.entry + 1).find(step => step.id === id), 'held');
      }
    });
  }

  /** A map that shows a bit comes after the first step that set it; one that doesn't, before, where nothing cleared it. */
  maps() {
    const {first, clearers, again} = this.bits;
    const places = new Map();
    for (const list of this.report.lists) this.gather(places, `${list.node} ${list.group}`, list);
    for (const map of this.bits.maps) {
      for (const list of places.get(`${map.node} ${map.group}`) ?? []) {
        if (list.id >> 6 !== map.unit) continue;
        const name = place_name(list.id, list.node, list.group),
              digit = parseInt(map.bits[15 - ((list.id & 63) >> 2)], 16);
        const is_set = (digit >> (list.id & 3)) & 1;
        if (is_set && !again.has(name)) this.before(first.get(name), map, 'bit');
        if (!is_set && !clearers.has(name)) this.before(map, first.get(name), 'bit');
      }
      for (const {step, list} of map.own) {
        if ([...(clearers.get(list) ?? [])].every(worker => worker === map.worker)) this.before(map, step, 'bit');
      }
    }
  }
}
