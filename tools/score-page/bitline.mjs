// The thin line below a list: its bit, set, clear, not known, or lost.

/** A stretch of the line, from x to x, around a height. */
export function draw_bit(pen, state, from, to, y, colours) {
  const wide = Math.max(1, to - from);
  if (state === 'set') {
    pen.fillStyle = colours.ink;
    pen.fillRect(from, y - 1.5, wide, 3);
  } else if (state === 'lost') {
    pen.fillStyle = colours.lost;
    pen.fillRect(from, y - 3, wide, 6);
  } else if (state === 'clear') {
    pen.fillStyle = colours.hatch;
    pen.fillRect(from, y - 0.5, wide, 1);
  } else {
    pen.fillStyle = colours.ink;
    for (let x = from - (from % 6); x < to; x += 6) {
      const left = Math.max(x, from), right = Math.min(x + 3, to);
      if (right > left) pen.fillRect(left, y - 1.5, right - left, 3);
    }
  }
}

/** The state of a bit at a step, or null where the list has none. */
export const bit_at = (spans, at) => spans?.find(span => at >= span.from && at < span.to)?.state ?? null;
