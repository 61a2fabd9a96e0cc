// Colours are told apart by eyes that lack one kind of cone, and text is read on them.

import assert from 'node:assert/strict';
import {readFileSync} from 'node:fs';
import {test} from 'node:test';
import {KINDS, ink_on, theme} from '../look.mjs';

// What is left of a colour, in linear light, for eyes without one kind of cone (Machado, Oliveira and Fernandes, 2009).
const SIGHTS = {
  all: [[1, 0, 0], [0, 1, 0], [0, 0, 1]],
  protanopia: [[0.152286, 1.052583, -0.204868], [0.114503, 0.786281, 0.099216], [-0.003882, -0.048116, 1.051998]],
  deuteranopia: [[0.367322, 0.860646, -0.227968], [0.280085, 0.672501, 0.047413], [-0.01182, 0.04294, 0.968881]],
  tritanopia: [[1.255528, -0.076749, -0.178779], [-0.078411, 0.930809, 0.147602], [0.004733, 0.691367, 0.3039]],
};

const linear = colour => [1, 3, 5]
                             .map(at => parseInt(colour.slice(at, at + 2), 16) / 255)
                             .map(part => (part <= 0.04045 ? part / 12.92 : ((part + 0.055) / 1.055) ** 2.4));
const luminance = colour => {
  const [red, green, blue] = linear(colour);
  return 0.2126 * red + 0.7152 * green + 0.0722 * blue;
};
const contrast = (one, other) => {
  const [high, low] = [luminance(one), luminance(other)].sort((a, b) => b - a);
  return (high + 0.05) / (low + 0.05);
};

// CIELAB, in which 2.3 is a difference that is just seen.
function lab(colour, sight) {
  const light = linear(colour),
        seen = SIGHTS[sight].map(
            row => Math.max(0, Math.min(1, row.reduce((sum, part, at) => sum + part * light[at], 0))));
  const xyz = [[0.4124, 0.3576, 0.1805], [0.2126, 0.7152, 0.0722], [0.0193, 0.1192, 0.9505]].map(
      (row, at) => row.reduce((sum, part, which) => sum + part * seen[which], 0) / [0.95047, 1, 1.08883][at]);
  const [x, y, z] = xyz.map(part => (part > 0.008856 ? Math.cbrt(part) : 7.787 * part + 16 / 116));
  return [116 * y - 16, 500 * (x - y), 200 * (y - z)];
}

test('any two kinds differ in the shape of their mark, and in colour for every kind of sight', () => {
  const kinds = Object.entries(KINDS);
  assert.equal(new Set(kinds.map(([, kind]) => kind.mark)).size, kinds.length);
  for (const sight of Object.keys(SIGHTS))
    kinds.forEach(([one, first], at) => kinds.slice(at + 1).forEach(([other, second]) => {
      const from = lab(first.colour, sight), to = lab(second.colour, sight),
            distance = Math.hypot(...from.map((part, which) => part - to[which]));
      assert.ok(distance > 10, `${one} and ${other} with ${sight}: ${distance.toFixed(1)}`);
    }));
});

test('text is read on each colour, in both forms', () => {
  for (const [name, {colour}] of Object.entries(KINDS)) assert.ok(contrast(colour, ink_on(colour)) >= 4.5, name);
  for (const is_dark of [false, true]) {
    const colours = theme(is_dark);
    for (const ground of ['paper', 'band', 'off'])
      assert.ok(contrast(colours.ink, colours[ground]) >= 7, `${ground} ${is_dark}`);
    assert.ok(contrast(colours.dim, colours.paper) >= 4.5 && contrast(colours.ink, colours.live) >= 4.5, `${is_dark}`);
  }
});

test('no text is smaller than 12 px', () => {
  const sources = ['page.css', 'picture.mjs', 'page.html']
                      .map(name => readFileSync(new URL(`../${name}`, import.meta.url), 'utf8'))
                      .join('\n');
  const sizes = [...sources.matchAll(/(?:font(?:-size)?:?\s*[^;\n]*?|')(\d+(?:\.\d+)?)px/g)]
                    .map(found => Number(found[1]))
                    .filter(size => size > 6);
  const relative = [...sources.matchAll(/font(?:-size)?: ?(\d+(?:\.\d+)?)rem/g)].map(found => Number(found[1]) * 13);
  assert.ok(sizes.length >= 3 && relative.length >= 3);
  assert.ok(Math.min(...sizes, ...relative) >= 12, `${Math.min(...sizes, ...relative)}`);
});
