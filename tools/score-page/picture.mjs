// The picture: the rows on a canvas, of which only what is seen is drawn.

import {draw_bit} from './bitline.mjs';
import {draw_mark, ink_on, kind_of_answer, kind_of_entry, KINDS} from './look.mjs';
import {first_from} from './rows.mjs';

export const GUTTER = 200, RULER = 24;
const HEIGHT = {
  title: 26,
  worker: 28,
  usage: 38,
  id: 24,
  list: 38,
  units: 38,
  fold: 24
},
      GAP = 4, BIT = 9, HEAD = 15, FONT = '12px system-ui, "DejaVu Sans", sans-serif', MARK = 8;

/** Gives each row its place from the top; the height of all. */
export function lay_out(rows) {
  let y = RULER + 4;
  for (const row of rows) {
    row.y = y;
    row.h = HEIGHT[row.kind] + (row.bit ? BIT : 0);
    // What touches a row that isn't shown is drawn to the row that it is behind.
    for (const hidden of row.hidden ?? []) Object.assign(hidden, {y, h: row.h});
    y += row.h + GAP;
  }
  return y + 8;
}

/** The row at a height, counted from the top of all rows, or undefined. */
export const row_at = (rows, y) => rows.find(row => y >= row.y && y < row.y + row.h && row.kind !== 'title');

/** Draws on a canvas what the view shows: `view` has the zoom, how far it is scrolled, its size, and what is pointed at. */
export class Picture {
  constructor(canvas) {
    this.canvas = canvas;
    this.pen = canvas.getContext('2d');
  }

  draw(score, view, colours) {
    const ratio = view.ratio, {width, height} = view;
    if (this.canvas.width !== Math.round(width * ratio) || this.canvas.height !== Math.round(height * ratio)) {
      this.canvas.width = Math.round(width * ratio);
      this.canvas.height = Math.round(height * ratio);
    }
    Object.assign(this, {score, view, colours});
    const {pen} = this;
    pen.setTransform(ratio, 0, 0, ratio, 0, 0);
    pen.fillStyle = colours.paper;
    pen.fillRect(0, 0, width, height);
    pen.font = FONT;
    pen.textBaseline = 'middle';
    this.from = Math.max(0, view.left / view.zoom - 2);
    this.to = Math.min(score.steps, (view.left + width - GUTTER) / view.zoom + 2);
    this.drawn = 0;
    this.clipped(GUTTER, RULER, width - GUTTER, height - RULER, () => {
      for (const row of this.seen_rows()) this.row(row, row.y - view.top);
      this.lines();
    });
    this.ruler();
    this.gutter();
  }

  x(at) {
    return GUTTER + at * this.view.zoom - this.view.left;
  }

  seen_rows() {
    return this.score.rows.filter(
        row => row.y - this.view.top < this.view.height && row.y + row.h - this.view.top > RULER);
  }

  clipped(x, y, width, height, draw) {
    this.pen.save();
    this.pen.beginPath();
    this.pen.rect(x, y, width, height);
    this.pen.clip();
    draw();
    this.pen.restore();
  }

  row(row, y) {
    if (row.kind === 'title') return;
    const {pen, colours, view} = this;
    pen.fillStyle = colours.band;
    pen.fillRect(GUTTER, y, view.width - GUTTER, row.h);
    if (row.kind === 'fold')
      this.text(
          `of ids that no cache had, which went with their groups; a click ${row.is_open ? 'hides' : 'shows'} them`,
          GUTTER + 8, y + row.h / 2, view.width - GUTTER - 12, colours.dim);
    else if (row.kind === 'worker')
      this.commands(row, y);
    else if (row.kind === 'id')
      this.spans(row, y);
    else
      this.levels(row, y);
    if (view.cursor?.row === row && row.kind !== 'worker') {
      pen.strokeStyle = colours.cursor;
      pen.lineWidth = 1.5;
      pen.strokeRect(GUTTER + 1, y + 0.5, view.width - GUTTER - 2, row.h - 1);
    }
  }

  commands(row, y) {
    const {pen, view, colours} = this, {zoom} = view, picked = view.hover ?? view.chosen;
    let drawn_to = -1;
    for (let place = first_from(row.to, this.from); place < row.commands.length && row.commands[place].from <= this.to;
         place++) {
      const command = row.commands[place], x = this.x(command.from), end = this.x(command.to + 1);
      if (end < drawn_to && command !== picked) continue;
      const width = Math.max(1, end - x - (zoom > 1 ? 1 : 0)), kind = KINDS[kind_of_answer(command.answer)],
            is_picked = command === view.hover || command === view.chosen;
      drawn_to = Math.max(drawn_to, x + 1);
      this.drawn += 1;
      pen.fillStyle = kind.colour;
      pen.fillRect(x, y + 4, width, row.h - 8);
      if (is_picked) {
        pen.strokeStyle = colours.cursor;
        pen.lineWidth = 2;
        pen.strokeRect(x, y + 2, width, row.h - 4);
      }
      if (width < 13) continue;
      const ink = ink_on(kind.colour), shown = Math.max(x, GUTTER);
      draw_mark(pen, kind.mark, shown + 7, y + row.h / 2, MARK, ink);
      if (x + width - shown < 34) continue;
      this.text(command.text || command.answer.join(' '), shown + 14, y + row.h / 2, x + width - shown - 16, ink);
    }
  }

  text(text, x, y, width, colour) {
    this.pen.fillStyle = colour;
    this.clipped(x, y - 9, width, 18, () => this.pen.fillText(text, x, y));
  }

  // A number over time, as an area; and below it what else its row has.
  levels(row, y) {
    const {pen, colours, view} = this, floor = y + row.h - 2 - (row.bit ? BIT : 0), room = floor - y - HEAD,
                         top = Math.max(row.most, row.limit ?? 0, 1);
    if (row.kind === 'usage') this.stages(row, y);
    if (row.closed !== null && row.closed !== undefined) this.stretch(row.closed, Infinity, y, row.h, colours.off);
    const height = value => floor - room * Math.max(0, value) / top;
    pen.beginPath();
    const start = Math.max(0, first_from(row.at, this.from) - 1);
    let now = start < row.at.length && row.at[start] < this.from ? row.value[start] : 0, last_x = GUTTER - 2,
        most = now;
    pen.moveTo(last_x, floor);
    pen.lineTo(last_x, height(now));
    for (let place = start; place < row.at.length && row.at[place] <= this.to; place++) {
      const x = Math.max(GUTTER - 2, this.x(row.at[place]) + view.zoom / 2);
      most = Math.max(most, row.value[place]);
      // Several changes on one dot of the screen are drawn as their highest, and then go on with the last.
      if (x - last_x >= 0.5) {
        pen.lineTo(x, height(now));
        last_x = x;
        most = Math.max(now, row.value[place]);
        pen.lineTo(x, height(most));
        this.drawn += 1;
      } else
        pen.lineTo(last_x, height(most));
      now = row.value[place];
      pen.lineTo(last_x, height(now));
    }
    const end = Math.min(this.x(this.score.steps), view.width + 2);
    pen.lineTo(end, height(now));
    pen.lineTo(end, floor);
    pen.closePath();
    pen.fillStyle = row.kind === 'usage' ? colours.usage : colours.list;
    pen.fill();
    if (row.kind === 'usage') this.stage_names(row, y);
    if (row.limit !== null && row.limit !== undefined) this.limit(height(row.limit));
    if (row.bit) this.bit(row, y + row.h - BIT / 2);
    if (row.entries) this.entries(row, y);
  }

  // The list's bit; where it is lost, the word stands above the end of the line.
  bit(row, y) {
    const {pen, view, colours} = this;
    for (const {from, to, state} of row.bit) {
      if (to < this.from || from > this.to) continue;
      this.drawn += 1;
      const left = Math.max(GUTTER, this.x(from)), right = Math.min(view.width, this.x(to));
      draw_bit(pen, state, left, right, y, colours);
      const word = 'bit lost', wide = pen.measureText(word).width;
      if (state !== 'lost' || right - GUTTER < wide + 8) continue;
      pen.fillStyle = colours.paper;
      pen.fillRect(right - wide - 8, y - 21, wide + 8, 16);
      this.text(word, right - wide - 4, y - 13, wide + 4, colours.lost);
    }
  }

  limit(y) {
    const {pen} = this;
    pen.strokeStyle = KINDS.refused.colour;
    pen.lineWidth = 1.5;
    pen.setLineDash([6, 4]);
    pen.beginPath();
    pen.moveTo(GUTTER, Math.round(y) + 0.5);
    pen.lineTo(this.view.width, Math.round(y) + 0.5);
    pen.stroke();
    pen.setLineDash([]);
  }

  // A group that isn't made yet, goes offline, and is offline.
  stages(row, y) {
    if (row.made !== null) this.stretch(0, row.made, y, row.h, null);
    if (row.begin !== null) this.stretch(row.begin, row.done ?? Infinity, y, row.h, null);
    if (row.done !== null) this.stretch(row.done, Infinity, y, row.h, this.colours.off);
  }

  stage_names(row, y) {
    const end = this.score.steps;
    if (row.made !== null) this.label('not made', 0, Math.min(row.made, end), y);
    if (row.begin !== null) this.label('going offline', row.begin, row.done ?? end, y);
    if (row.done !== null) this.label('offline', row.done, end, y);
  }

  label(text, from, to, y) {
    const x = Math.max(GUTTER, this.x(from)) + 4, width = Math.min(this.view.width, this.x(to)) - x;
    const wide = this.pen.measureText(text).width;
    if (width < wide) return;
    this.pen.fillStyle = this.colours.paper;
    this.pen.fillRect(x - 2, y, wide + 4, HEAD + 1);
    this.text(text, x, y + 8, width, this.colours.ink);
  }

  // A stretch of a row, filled or hatched.
  stretch(from, to, y, height, fill) {
    const {pen, view, colours} = this, x = Math.max(GUTTER, this.x(from)),
                      end = Math.min(view.width, to === Infinity ? view.width : this.x(to));
    if (end <= x) return;
    if (fill) {
      pen.fillStyle = fill;
      pen.fillRect(x, y, end - x, height);
      return;
    }
    this.clipped(x, y, end - x, height, () => {
      pen.strokeStyle = colours.hatch;
      pen.lineWidth = 1;
      pen.beginPath();
      for (let at = x - height - (x % 7); at < end; at += 7) {
        pen.moveTo(at, y + height);
        pen.lineTo(at + height, y);
      }
      pen.stroke();
    });
  }

  // A mark at each entry, where there is room for them; else one for those that would stand on each other.
  entries(row, y) {
    let last_x = -Infinity;
    for (let place = first_from(row.at, this.from); place < row.at.length && row.at[place] <= this.to; place++) {
      const x = this.x(row.at[place]) + this.view.zoom / 2;
      if (x - last_x < 3) continue;
      last_x = x;
      this.drawn += 1;
      const {kind, mark} = kind_of_entry(row.entries[place]);
      draw_mark(this.pen, mark, x, y + 8, MARK + 2.5, this.colours.ink);
      draw_mark(this.pen, mark, x, y + 8, MARK, KINDS[kind].colour);
    }
  }

  spans(row, y) {
    const {pen, view, colours} = this;
    for (const span of row.spans) {
      if (span.to < this.from || span.from > this.to) continue;
      const x = Math.max(GUTTER, this.x(span.from)), end = Math.min(view.width, this.x(span.to));
      this.drawn += 1;
      if (!span.dying) {
        pen.fillStyle = colours.live;
        pen.fillRect(x, y + 3, Math.max(1, end - x), row.h - 6);
      } else
        this.stretch(span.from, span.to, y + 3, row.h - 6, null);
      if (end - x > 30)
        this.text(`${span.cache}${span.dying ? ', dying' : ''}`, x + 4, y + row.h / 2, end - x - 6, colours.ink);
    }
  }

  // The steps of the command that is pointed at, as lines from its worker to the rows that they touch.
  lines() {
    const {pen, view, score, colours} = this, command = view.hover ?? view.chosen;
    const cursor = view.cursor?.at;
    if (command) {
      const own = score.rows.find(row => row.kind === 'worker' && row.worker === command.worker),
            from = own.y + own.h - 4 - view.top, drawn = new Set();
      for (const step of command.steps) {
        if (step.at < this.from || step.at > this.to) continue;
        const x = Math.round(this.x(step.at) + view.zoom / 2) + 0.5, row = score.touched(step),
              name = row ? `${x} ${row.y}` : '';
        if (!row || drawn.has(name)) continue;
        drawn.add(name);
        this.drawn += 1;
        const to = row.y + (row.entries ? 2 : row.h / 2) - view.top;
        pen.strokeStyle = colours.ink;
        pen.globalAlpha = step.at === cursor ? 1 : 0.45;
        pen.lineWidth = step.at === cursor ? 2 : 1;
        pen.beginPath();
        pen.moveTo(x, from);
        pen.lineTo(x, to);
        pen.stroke();
        pen.globalAlpha = 1;
        if (row.kind === 'usage' || row.kind === 'id')
          draw_mark(pen, 'dot', x, to, step.at === cursor ? 8 : 6, colours.ink);
      }
    }
    if (cursor === undefined || cursor < this.from || cursor > this.to) return;
    pen.strokeStyle = colours.cursor;
    pen.lineWidth = 1;
    pen.setLineDash([2, 3]);
    pen.beginPath();
    const x = Math.round(this.x(cursor) + view.zoom / 2) + 0.5;
    pen.moveTo(x, RULER);
    pen.lineTo(x, view.height);
    pen.stroke();
    pen.setLineDash([]);
  }

  ruler() {
    const {pen, view, colours, score} = this;
    pen.fillStyle = colours.paper;
    pen.fillRect(0, 0, view.width, RULER);
    const every = [1, 2, 5]
                      .flatMap(one => [0, 1, 2, 3, 4, 5, 6].map(zeros => one * 10 ** zeros))
                      .sort((one, other) => one - other)
                      .find(one => one * view.zoom >= 70) ??
        1e7;
    pen.textAlign = 'center';
    for (let at = Math.ceil(this.from / every) * every; at <= Math.min(this.to, score.steps); at += every) {
      const x = this.x(at) + view.zoom / 2;
      if (x < GUTTER + 12) continue;
      pen.fillStyle = colours.dim;
      pen.fillText(at, x, RULER / 2);
      pen.fillRect(Math.round(x), RULER - 4, 1, 4);
    }
    pen.textAlign = 'left';
    pen.fillStyle = colours.line;
    pen.fillRect(0, RULER - 1, view.width, 1);
  }

  // A name that is too long loses its start: the end tells the cache.
  fitted(text, width) {
    const name = `${this.pen.font} ${width} ${text}`;
    this.names ??= new Map();
    if (!this.names.has(name)) {
      let from = 0;
      while (from < text.length && this.pen.measureText(from ? `…${text.slice(from)}` : text).width > width) from += 1;
      this.names.set(name, from ? `…${text.slice(from)}` : text);
    }
    return this.names.get(name);
  }

  // The names of the rows, before all else.
  gutter() {
    const {pen, view, colours} = this;
    pen.fillStyle = colours.paper;
    pen.fillRect(0, 0, GUTTER - 1, view.height);
    pen.fillStyle = colours.line;
    pen.fillRect(GUTTER - 1, 0, 1, view.height);
    this.text('step', 10, RULER / 2, GUTTER - 20, colours.dim);
    this.clipped(0, RULER, GUTTER, view.height - RULER, () => {
      for (const row of this.seen_rows()) {
        const y = row.y - view.top + row.h / 2, is_here = view.cursor?.row === row;
        pen.font = `${row.kind === 'title' || is_here ? '600 ' : ''}${FONT}`;
        const [value, colour] = [
          row.most === undefined ?
              '' :
              `${row.most}${row.limit !== null && row.limit !== undefined ? ` of ${row.limit}` : ''}`,
          row.lost                                        ? colours.lost :
              row.kind === 'title' || row.kind === 'fold' ? colours.dim :
                                                            colours.ink
        ];
        const wide = value ? pen.measureText(value).width + 8 : 0;
        const label = row.kind === 'fold' ? `${row.is_open ? '−' : '+'} ${row.label}` : row.label;
        this.text(this.fitted(label, GUTTER - 20 - wide), is_here ? 16 : 10, y, GUTTER - 18 - wide, colour);
        if (is_here) draw_mark(pen, 'diamond', 9, y, 7, colours.ink);
        if (value) {
          pen.fillStyle = colours.dim;
          pen.textAlign = 'right';
          pen.fillText(value, GUTTER - 8, y);
          pen.textAlign = 'left';
        }
      }
    });
    pen.font = FONT;
  }
}
