// The page: what is pointed at by the pointer and the keys, zoom, search, opening another report, and print.

import {read_run} from './check.mjs';
import {fault_lines, legend} from './legend.mjs';
import {listen, part} from './listen.mjs';
import {theme} from './look.mjs';
import {command_panel, help_panel, results_panel, row_panel} from './panel.mjs';
import {GUTTER, lay_out, Picture, row_at, RULER} from './picture.mjs';
import {command_name, first_from, rows_of, toggled} from './rows.mjs';
import {search} from './search.mjs';

const MOST_WIDTH = 15e6, MOST_ZOOM = 64, PRINT_WIDTH = 1040, MOST_PRINT_HEIGHT = 8000;

export class Page {
  constructor() {
    this.scroller = part('score');
    this.picture = new Picture(part('picture'));
    this.dark = matchMedia('(prefers-color-scheme: dark)');
    this.view = {
      zoom: 1,
      left: 0,
      top: 0,
      width: 0,
      height: 0,
      ratio: 1,
      hover: null,
      chosen: null,
      cursor: null,
      printing: false
    };
    this.found = {words: '', results: [], which: -1};
    this.pointed = null;
    listen(this);
    this.legend();
  }

  /** Shows a report, or why it is refused. */
  load({name, report, script}) {
    const run = read_run(report, script);
    part('refused').hidden = !run.error;
    part('main').hidden = Boolean(run.error);
    part('faults').hidden = !run.faults?.length;
    part('faults').replaceChildren(...fault_lines(run.faults ?? [], place => this.go_to_list(place)));
    part('name').textContent = name;
    document.title = `${name}: a run of shrinkers`;
    if (run.error) {
      part('refused').textContent = run.error;
      part('total').textContent = '';
      this.run = this.score = null;
      return;
    }
    this.run = run;
    this.score = {...rows_of(run), steps: run.row.length, groups: run.report.groups};
    this.score.height = lay_out(this.score.rows);
    Object.assign(this.view, {hover: null, chosen: null, cursor: null});
    this.pointed = null;
    const total = run.report.total;
    part('total').textContent = `${total.replies} command${total.replies === 1 ? '' : 's'} · ${total.added} added · ${
        total.freed} freed · ${total.listed} listed · ${total.walks} walk${total.walks === 1 ? '' : 's'} · ${
        run.row.length} steps in one possible order`;
    this.fit();
    this.tell();
  }

  fit() {
    this.measure();
    this.zoom_to((this.view.width - GUTTER - 16) / this.score.steps);
  }

  measure() {
    const {view, scroller} = this;
    Object.assign(view, {width: scroller.clientWidth, height: scroller.clientHeight, ratio: devicePixelRatio || 1});
  }

  zoom_to(zoom, x = GUTTER) {
    const {view, score, scroller} = this, at = (view.left + x - GUTTER) / view.zoom;
    view.zoom = Math.max(
        Math.min(1, (view.width - GUTTER - 16) / score.steps), Math.min(MOST_ZOOM, MOST_WIDTH / score.steps, zoom));
    part('room').style.width = `${GUTTER + score.steps * view.zoom + 16}px`;
    part('room').style.height = `${score.height}px`;
    scroller.scrollLeft = at * view.zoom - x + GUTTER;
    this.scrolled();
  }

  zoom_by(factor) {
    const {view} = this, at = view.cursor ? GUTTER + view.cursor.at * view.zoom - view.left : view.width / 2;
    this.zoom_to(view.zoom * factor, at > GUTTER && at < view.width ? at : view.width / 2);
  }

  scrolled() {
    this.view.left = this.scroller.scrollLeft;
    this.view.top = this.scroller.scrollTop;
    this.redraw();
  }

  redraw() {
    if (this.waiting || !this.score) return;
    this.waiting = requestAnimationFrame(() => {
      this.waiting = 0;
      this.draw();
    });
  }

  draw() {
    if (!this.score) return;
    const begun = performance.now();
    const {canvas} = this.picture, {view} = this;
    canvas.style.width = `${view.width}px`;
    canvas.style.height = `${view.height}px`;
    this.picture.draw(this.score, view, theme(this.dark.matches && !view.printing));
    this.took = performance.now() - begun;
  }

  /** What is at a place of the picture: a row and a moment, and a command where there is one. */
  at(x, y) {
    const {view, score} = this, row = row_at(score.rows, y + view.top);
    if (!row || y < RULER || (x < GUTTER && row.kind !== 'fold')) return null;
    const moment = Math.max(0, Math.min(score.steps - 1, Math.floor((x - GUTTER + view.left) / view.zoom)));
    if (row.kind === 'worker') {
      const command = this.command_of(row, moment);
      return command ? {row, moment: this.nearest(command.steps, moment), command} : {row, moment, command: null};
    }
    const near = this.near_entry(row, moment);
    return {
      row,
      moment: near ? near.at : moment,
      command: near ? this.score.commands.get(command_name(near.worker, near.command)) ?? null : null
    };
  }

  command_of(row, moment) {
    const command = row.commands[first_from(row.to, moment)];
    return command && command.from <= moment ? command : null;
  }

  nearest(steps, moment) {
    return steps.reduce(
        (best, step) => (Math.abs(step.at - moment) < Math.abs(best - moment) ? step.at : best), steps[0].at);
  }

  // The step of a row at a moment, where one is within some dots of the screen.
  near_entry(row, moment) {
    const place = first_from(row.moments, moment), near = [
      row.moments[place - 1], row.moments[place]
    ].filter(at => at !== undefined && Math.abs(at - moment) * this.view.zoom < 7);
    const at = near.sort((one, other) => Math.abs(one - moment) - Math.abs(other - moment))[0];
    return at === undefined ? null : this.run.row[at];
  }

  point(target) {
    const was = this.pointed;
    if (target?.row === was?.row && target?.moment === was?.moment && target?.command === was?.command) return;
    this.pointed = target;
    this.view.hover = target?.command ?? null;
    this.redraw();
    this.tell();
  }

  /** Keeps what is pointed at; the keys go on from there. */
  choose(target) {
    this.view.chosen = target?.command ?? null;
    this.view.cursor = target ? {row: target.row, at: target.moment} : null;
    this.view.hover = null;
    this.pointed = null;
    this.redraw();
    this.tell();
  }

  go(row, at) {
    const {view, scroller} = this;
    let command = null;
    const step = this.run.row[at];
    if (row.kind === 'worker')
      command = this.command_of(row, at);
    else if (this.score.touched(step) === row && step.worker !== undefined)
      command = this.score.commands.get(command_name(step.worker, step.command)) ?? null;
    this.choose({row, moment: at, command});
    const x = GUTTER + (at + 0.5) * view.zoom - view.left, room = view.width - GUTTER;
    if (x < GUTTER + 20 || x > view.width - 20) scroller.scrollLeft = (at + 0.5) * view.zoom - room / 2;
    if (row.y - view.top < RULER + 4)
      scroller.scrollTop = row.y - RULER - 4;
    else if (row.y + row.h - view.top > view.height)
      scroller.scrollTop = row.y + row.h + 8 - view.height;
    this.scrolled();
  }

  /** The arrow keys: along the row, or to another row at the same moment. */
  along(direction, by_command) {
    const row = this.view.cursor?.row ?? this.score.rows.find(one => one.kind === 'worker');
    if (!row) return;
    if (row.kind === 'fold' && (direction > 0) !== row.is_open) this.toggle(row);
    const {moments} = row, at = this.view.cursor?.at ?? -1;
    if (by_command && row.kind === 'worker') {
      const place = first_from(row.to, at),
            command = row.commands[direction > 0 ? (at < 0 ? 0 : place + 1) : place - 1];
      if (command) this.go(row, command.from);
      return;
    }
    const place = direction > 0 ? first_from(moments, at + 1) : first_from(moments, at) - 1;
    if (moments[place] !== undefined) this.go(row, moments[place]);
  }

  across(direction) {
    const rows = this.score.rows.filter(row => row.kind !== 'title'), {cursor} = this.view;
    const row = cursor ? rows[rows.indexOf(cursor.row) + direction] : rows[0];
    if (!row) return;
    const at = cursor?.at ?? 0;
    this.go(row, row.kind === 'worker' ? this.snapped(row, at) : at);
  }

  snapped(row, at) {
    const place = first_from(row.moments, at), [before, after] = [row.moments[place - 1], row.moments[place]];
    if (before === undefined || (after !== undefined && after - at < at - before)) return after;
    return before;
  }

  search(words) {
    const which = words === this.found.words ? this.found.which : -1;
    this.found = {words, results: search(this.score, words), which};
    this.tell();
  }

  next_found(direction) {
    const {found} = this;
    if (!found.results.length) return;
    this.go_found(
        found.which < 0 ? (direction > 0 ? 0 : found.results.length - 1) :
                          (found.which + direction + found.results.length) % found.results.length);
  }

  go_found(which) {
    this.found.which = which;
    const {row, command} = this.found.results[which];
    if (command)
      this.go(this.score.rows.find(one => one.kind === 'worker' && one.worker === command.worker), command.from);
    else {
      const fold = this.score.rows.find(one => one.hidden?.includes(row));
      if (fold && !fold.is_open) this.toggle(fold);
      this.go(row, row.moments[0] ?? 0);
    }
  }

  // The panel: what the search found, then what is pointed at or kept.
  tell() {
    if (!this.run) return;
    const {cursor, chosen} = this.view,
                   target = this.pointed ?? (cursor ? {row: cursor.row, moment: cursor.at, command: chosen} : null);
    const parts = [];
    if (this.found.words)
      parts.push(
          ...results_panel(this.found.words, this.found.results, this.found.which, which => this.go_found(which)));
    if (target && target.row.kind !== 'worker') parts.push(...row_panel(this.run, target.row, target.moment));
    if (target?.command) parts.push(...command_panel(this.run, target.command, target.moment));
    if (!parts.length) parts.push(...help_panel());
    part('panel').replaceChildren(...parts.filter(one => one !== null));
    part('panel').scrollTop = 0;
    if (target?.row.kind === 'worker') part('panel').querySelector('.steps .here')?.scrollIntoView({block: 'nearest'});
    if (!this.pointed && cursor)
      part('said').textContent = cursor.row.kind === 'fold' ?
          cursor.row.label :
          `${cursor.row.label}, step ${cursor.at}: ${this.run.words.step(this.run.row[cursor.at])}`;
  }

  legend() {
    part('legend').replaceChildren(...legend(theme(this.dark.matches && !this.view.printing)));
  }

  /** Shows or hides the lists behind a row. */
  toggle(fold) {
    this.score.rows = toggled(this.score.rows, fold);
    this.score.height = lay_out(this.score.rows);
    this.zoom_to(this.view.zoom);
    this.redraw();
  }

  // The list of a place, at its last step.
  go_to_list(place) {
    const row = this.score.rows.find(one => one.name === place && one.kind === 'list');
    this.go(row, row.moments.at(-1) ?? 0);
    this.scroller.focus();
  }

  key(event) {
    if (event.ctrlKey || event.metaKey || event.altKey || !this.score) return;
    const in_search = event.target === part('search');
    if (in_search && event.key === 'Enter') {
      this.next_found(event.shiftKey ? -1 : 1);
      event.preventDefault();
    }
    if (event.key === 'Escape') this.escape(in_search);
    if (in_search || event.target.closest?.('button, input')) return;
    const act = {
      ArrowRight: () => this.along(1, event.shiftKey),
      ArrowLeft: () => this.along(-1, event.shiftKey),
      ArrowDown: () => this.across(1),
      ArrowUp: () => this.across(-1),
      Home: () => this.edge(0),
      End: () => this.edge(-1),
      '+': () => this.zoom_by(1.5),
      '=': () => this.zoom_by(1.5),
      '-': () => this.zoom_by(1 / 1.5),
      0: () => this.fit(),
      '/': () => {
        part('search').focus();
        part('search').select();
      },
      n: () => this.next_found(1),
      N: () => this.next_found(-1),
    }[event.key];
    if (!act) return;
    event.preventDefault();
    act();
  }

  escape(in_search) {
    if (in_search) {
      part('search').value = '';
      this.search('');
      this.scroller.focus();
      return;
    }
    this.choose(null);
  }

  edge(which) {
    const row = this.view.cursor?.row ?? this.score.rows.find(one => one.kind === 'worker'),
          at = row?.moments.at(which);
    if (at !== undefined) this.go(row, at);
  }

  /** Print: the whole run in the width of a sheet, in the light form. */
  print(is_on) {
    if (!this.score || this.view.printing === is_on) return;
    this.view.printing = is_on;
    if (is_on) {
      this.kept = {...this.view};
      const height = Math.min(this.score.height, MOST_PRINT_HEIGHT);
      Object.assign(this.view, {
        width: PRINT_WIDTH,
        height,
        left: 0,
        top: 0,
        zoom: (PRINT_WIDTH - GUTTER - 4) / this.score.steps,
        ratio: 2,
        hover: null
      });
      part('cut').hidden = height === this.score.height;
    } else
      Object.assign(this.view, this.kept, {printing: false});
    this.legend();
    this.draw();
  }

  /** Opens a report, and a script with it where two files are given. */
  async open(files) {
    const texts = await Promise.all(files.map(async file => ({name: file.name, text: await file.text()})));
    const script = texts.length > 1 ? texts.find(({text}) => text.startsWith('shrinkers')) : undefined,
          report = texts.find(one => one !== script);
    if (report) this.load({name: report.name, report: report.text, script: script?.text ?? ''});
  }
}
