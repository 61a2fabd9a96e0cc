// What stands above the picture: the legend, and the faults of the report.

import {draw_bit} from './bitline.mjs';
import {BITS, draw_mark, KINDS} from './look.mjs';
import {element} from './panel.mjs';

function icon(draw) {
  const canvas = element('canvas', {width: 32, height: 32, 'aria-hidden': 'true'}), pen = canvas.getContext('2d');
  pen.scale(2, 2);
  draw(pen);
  return canvas;
}

/** The kinds of marks, and what is told of bits; `colours` are those of the form in use. */
export function legend(colours) {
  const marks = Object.values(KINDS).map(({word, colour, mark}) => {
    const drawn = icon(pen => {
      draw_mark(pen, mark, 8, 8, 12.5, colours.ink);
      draw_mark(pen, mark, 8, 8, 10, colour);
    });
    return element('span', {}, drawn, word);
  });
  const bits = Object.entries(BITS).map(
      ([state, word]) => element('span', {}, icon(pen => draw_bit(pen, state, 0, 16, 8, colours)), word));
  return [...marks, ...bits];
}

/** The faults of a report, each with a button that goes to its list where it has one. */
export function fault_lines(faults, go) {
  return faults.map(fault => {
    const line = element('p', {}, fault.words, ' ');
    if (fault.place === undefined) return line;
    const button = element('button', {type: 'button'}, 'show the list');
    button.addEventListener('click', () => go(fault.place));
    line.append(button);
    return line;
  });
}
