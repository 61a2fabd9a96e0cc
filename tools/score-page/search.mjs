// Searches a run for a key, a group, a cache, a command or an answer.

/** Rows and commands in which all words of a search stand, rows first, commands as they come in the picture. */
export function search(score, words) {
  const wanted = words.toLowerCase().split(/\s+/).filter(word => word !== '');
  if (!wanted.length) return [];
  score.texts ??= texts_of(score);
  return score.texts.filter(({text}) => wanted.every(word => text.includes(word)));
}

function texts_of(score) {
  const rows = score.rows.flatMap(row => (row.hidden && !row.is_open ? [row, ...row.hidden] : [row]))
                   .filter(row => row.kind !== 'title' && row.kind !== 'fold')
                   .map(row => ({
                          row,
                          command: null,
                          label: row.label,
                          text: `${row.kind === 'usage' ? 'group ' : `${row.kind} `}${row.label}`.toLowerCase()
                        }));
  const commands = [...score.commands.values()].sort((one, other) => one.from - other.from).map(command => {
    const label = `worker ${command.worker}, command ${command.number}: ${command.text ? `${command.text} → ` : ''}${
        command.answer.join(' ')}`;
    return {
      row: null,
      command,
      label,
      text: `${label} ${command.worker}.${command.number} ${named(score, command)}`.toLowerCase()
    };
  });
  return [...rows, ...commands];
}

// The keys and groups that a command's entries name, and `closed` where it found a list closed.
function named(score, command) {
  const names = new Set();
  for (const step of command.steps) {
    if (step.key !== undefined) {
      names.add(step.key);
      names.add(score.groups[step.birth]);
    }
    if (step.on === 'shut') names.add('closed');
    if (step.on === 'word' || step.on === 'tree') names.add(score.groups[step.group]);
  }
  return [...names].join(' ');
}
