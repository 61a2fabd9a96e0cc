// The lines of a text and the words of each, taken one by one by their classes; what doesn't fit is refused with the line and
// what was expected there. Reports and scripts are read by it.

/** Why a text is refused: the line, counted from 1, and what was expected on it. */
export class Refusal extends Error {
  constructor(line, expected, found) {
    super(`line ${line}: expected ${expected}${
        found === undefined ? '' : `, found ${JSON.stringify(found.slice(0, 200))}`}`);
    this.name = 'Refusal';
    this.line = line;
    this.expected = expected;
  }
}

const MOST = Number.MAX_SAFE_INTEGER, DOUBLE = 2n ** 64n - 1n;

export const PATH = /^(\/|(\/[a-z0-9_]{1,32})+)$/;
export const NAME = /^[a-z0-9_]{1,16}$/;
export const KEY = /^[!-~]{1,64}$/;
export const VALUE = /^=[!-~]{0,255}$/;

/** The most that a number of 32 bits can be. */
export const WORD = 2 ** 32 - 1;

/** The lines of a text, each with its words; a word is taken by the class that the line's form has there. */
export class Lines {
  constructor(text) {
    this.lines = text.split('\n');
    this.whole = this.lines.pop() === '';
    this.at = -1;
    this.words = [];
    this.next();
  }

  next() {
    this.at += 1;
    this.words = this.at < this.lines.length ? this.lines[this.at].split(' ') : [''];
    this.taken = 1;
    return this;
  }

  get first() { return this.words[0]; }

  get number() { return this.at + 1; }

  refuse(expected) {
    if (this.at >= this.lines.length) throw new Refusal(this.number, expected + ', and the text ends here');
    throw new Refusal(this.number, expected, this.lines[this.at]);
  }

  /** Says which form the line has; its words are then taken one by one. */
  form(form) {
    this.name = form;
    this.taken = 1;
  }

  word(what) {
    const word = this.words[this.taken++];
    if (word === undefined || word === '') this.refuse(`\`${this.name}\` with ${what}`);
    return word;
  }

  /** A number without a sign or a leading zero, from `least` to `most`. */
  count(what, most = MOST, least = 0) {
    const word = this.words[this.taken++], value = Number(word);
    if (String(value) !== word || !(value >= least && value <= most)) {
      this.refuse(`\`${this.name}\` with ${what} a number from ${least} to ${most === MOST ? '2^53 - 1' : most}`);
    }
    return value;
  }

  /** A number below `bound`, which is how many of a thing there are. */
  below(what, bound) {
    const word = this.words[this.taken++], value = Number(word);
    if (String(value) !== word || !(value >= 0 && value < bound)) {
      this.refuse(`\`${this.name}\` with ${what} a number below ${bound}`);
    }
    return value;
  }

  /** The number that is due, as where lines are numbered from 0. */
  due(what, value) {
    if (this.words[this.taken++] !== String(value)) this.refuse(`\`${this.name}\` with ${what} ${value}`);
    return value;
  }

  /** A number of 64 bits. */
  wide(what) {
    const word = this.words[this.taken++];
    if (!/^(0|[1-9][0-9]{0,19})$/.test(word) || BigInt(word) > DOUBLE) {
      this.refuse(`\`${this.name}\` with ${what} a number of 64 bits`);
    }
    return BigInt(word);
  }

  choice(...choices) {
    const word = this.words[this.taken++];
    if (!choices.includes(word)) this.refuse(`\`${this.name}\` with ${choices.join(' or ')}`);
    return word;
  }

  match(what, pattern) {
    const word = this.words[this.taken++];
    if (word === undefined || !pattern.test(word)) this.refuse(`\`${this.name}\` with ${what}`);
    return word;
  }

  /** The line ends here. */
  done() {
    if (this.words.length !== this.taken) this.refuse(`\`${this.name}\` and nothing after it`);
    this.next();
  }
}

/** The parent's number of each path: the path without its last part, which stands before it. */
export function parents_of(paths) {
  const numbers = new Map(paths.map((path, number) => [path, number]));
  return paths.map(path => numbers.get(path.slice(0, path.lastIndexOf('/')) || '/'));
}

/** The number of an entry of a journal. */
export function entry_of(what, lines, journal) {
  return lines.below(`${what}, the number of an entry of that journal,`, journal.length);
}

/** A place: an id, a node and a group. */
export function place(lines, report) {
  return {
    id: lines.below('ID', report.ids),
    node: lines.below('NODE', report.nodes),
    group: lines.below('G', report.groups.length),
  };
}

/** What is used up where an answer is `worn`. */
export function spent(lines, report) {
  const kind = lines.choice('lookups', 'list', 'charges');
  if (kind === 'lookups') {
    lines.below('ID', report.ids);
    lines.count('SEEN', WORD);
  }
  if (kind === 'list') {
    place(lines, report);
    lines.count('ENTRIES', WORD);
    lines.count('ITEMS', WORD);
  }
  if (kind === 'charges') {
    lines.count('CHARGES', WORD);
    lines.count('UNCHARGES', WORD);
  }
}
