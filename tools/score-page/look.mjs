// How things look: a colour and a mark for each kind of answer and entry, in a light and a dark form.

/** The kinds, with the word that the legend has, the colour and the shape of the mark. The colours are told apart by eyes
 *  that lack one kind of cone, and the marks by any. */
export const KINDS = {
  added: {word: 'added', colour: '#009e73', mark: 'plus'},
  looked: {word: 'looked up', colour: '#56b4e9', mark: 'ring'},
  dropped: {word: 'dropped', colour: '#cc79a7', mark: 'minus'},
  pinned: {word: 'pinned', colour: '#f0e442', mark: 'dot'},
  reclaim: {word: 'reclaim', colour: '#0072b2', mark: 'down'},
  refused: {word: 'refused or missed', colour: '#d55e00', mark: 'cross'},
  offline: {word: 'groups', colour: '#767e8a', mark: 'square'},
  register: {word: 'registration', colour: '#e69f00', mark: 'diamond'},
};

const BY_ANSWER = {
  added: 'added',
  released: 'added',
  hit: 'looked',
  dropped: 'dropped',
  grabbed: 'dropped',
  walked: 'reclaim',
  isolated: 'reclaim',
  swept: 'reclaim',
  registered: 'register',
  freed: 'register',
  half: 'register',
  made: 'offline',
};

/** The kind of a command by its answer; `done` with four words is an offlining's, and with more a pin's. */
export function kind_of_answer(answer) {
  if (answer[0] === 'done') return answer.length === 4 ? 'offline' : 'pinned';
  return BY_ANSWER[answer[0]] ?? 'refused';
}

const BY_ENTRY = {
  look: 'looked',
  drop: 'dropped',
  pin: 'pinned',
  unpin: 'pinned',
  scan: 'reclaim',
  moved: 'offline',
  closed: 'offline',
  drained: 'register',
  release: 'added',
  grab: 'dropped',
  reclaim: 'reclaim'
};

/** The kind of a list's entry, and the shape of its mark. */
export function kind_of_entry(entry) {
  if (['exists', 'miss', 'bare'].includes(entry.out) || (entry.kind === 'drop' && entry.out === 'pinned'))
    return {kind: 'refused', mark: 'cross'};
  const kind = entry.kind === 'add' ? 'added' : BY_ENTRY[entry.kind];
  const mark = {moved: 'up', closed: 'bar', unpin: 'open'}[entry.kind] ?? KINDS[kind].mark;
  return {kind, mark};
}

/** What is known of a bit over a stretch, with the word that the legend has. */
export const BITS = {
  set: 'bit set',
  clear: 'bit clear',
  unsure: 'not known',
  lost: 'bit lost'
};

const LIGHT = {
  ink: '#1a212b',
  dim: '#565f6b',
  line: '#c6cdd6',
  paper: '#ffffff',
  band: '#f0f3f6',
  usage: '#8fa3bd',
  list: '#86b7a4',
  hatch: '#9aa3af',
  off: '#dcdfe4',
  live: '#f2d193',
  cursor: '#1a212b',
  lost: '#d0021b'
};
const DARK = {
  ink: '#e8ecf1',
  dim: '#a4adb9',
  line: '#3b4552',
  paper: '#12171e',
  band: '#1c232d',
  usage: '#4e6787',
  list: '#3f7360',
  hatch: '#76808d',
  off: '#2f3741',
  live: '#7a5a1c',
  cursor: '#ffffff',
  lost: '#ff5c5c'
};

/** The colours of the form that the system asks for; print is light. */
export const theme = is_dark => (is_dark ? DARK : LIGHT);

/** Black or white, whichever is read better on a colour. */
export function ink_on(colour) {
  const [red, green, blue] = [1, 3, 5]
                                 .map(at => parseInt(colour.slice(at, at + 2), 16) / 255)
                                 .map(part => (part <= 0.04045 ? part / 12.92 : ((part + 0.055) / 1.055) ** 2.4));
  return 0.2126 * red + 0.7152 * green + 0.0722 * blue > 0.179 ? '#000000' : '#ffffff';
}

/** The path of a mark around a point; a ring and an open mark are stroked, all else is filled. */
export function draw_mark(canvas, mark, x, y, size, colour) {
  const arm = size / 2, thick = Math.max(1.5, size / 4);
  canvas.fillStyle = canvas.strokeStyle = colour;
  canvas.lineWidth = thick;
  canvas.beginPath();
  switch (mark) {
    case 'plus':
      canvas.moveTo(x - arm, y);
      canvas.lineTo(x + arm, y);
      canvas.moveTo(x, y - arm);
      canvas.lineTo(x, y + arm);
      canvas.stroke();
      return;
    case 'minus':
      canvas.rect(x - arm, y - thick / 2, size, thick);
      break;
    case 'cross':
      canvas.moveTo(x - arm * 0.8, y - arm * 0.8);
      canvas.lineTo(x + arm * 0.8, y + arm * 0.8);
      canvas.moveTo(x - arm * 0.8, y + arm * 0.8);
      canvas.lineTo(x + arm * 0.8, y - arm * 0.8);
      canvas.stroke();
      return;
    case 'ring':
      canvas.arc(x, y, arm * 0.8, 0, 7);
      canvas.stroke();
      return;
    case 'open':
      canvas.rect(x - arm * 0.7, y - arm * 0.7, arm * 1.4, arm * 1.4);
      canvas.stroke();
      return;
    case 'dot':
      canvas.arc(x, y, arm * 0.8, 0, 7);
      break;
    case 'down':
      canvas.moveTo(x - arm, y - arm * 0.8);
      canvas.lineTo(x + arm, y - arm * 0.8);
      canvas.lineTo(x, y + arm);
      break;
    case 'up':
      canvas.moveTo(x - arm, y + arm * 0.8);
      canvas.lineTo(x + arm, y + arm * 0.8);
      canvas.lineTo(x, y - arm);
      break;
    case 'square':
      canvas.rect(x - arm * 0.75, y - arm * 0.75, arm * 1.5, arm * 1.5);
      break;
    case 'diamond':
      canvas.moveTo(x, y - arm);
      canvas.lineTo(x + arm, y);
      canvas.lineTo(x, y + arm);
      canvas.lineTo(x - arm, y);
      break;
    default:
      canvas.rect(x - thick / 2, y - arm * 1.2, thick, arm * 2.4);
  }
  canvas.closePath();
  canvas.fill();
}
