// The files that a command is given: scripts and reports, told apart by their first lines. A script comes before its report.

import {readFileSync} from 'node:fs';

const FIRST = {
  script: '`shrinkers 1` or `shrinkers 2`',
  report: '`report 1` or `report 2`'
};

/**
 * The runs that the paths name, each with the name of its report, the report's text and the script's (or ''), and what is
 * wrong with the other paths, each with the status that it gives.
 */
export function runs_of(paths) {
  const runs = [], wrong = [];
  let script = null;
  const alone = () => {
    if (script)
      wrong.push({path: script.path, status: 2, why: 'a script without its report; SCRIPT comes before its REPORT'});
    script = null;
  };
  for (const path of paths) {
    const file = read_file(path);
    if (file.kind === 'report') {
      runs.push({path, report: file.text, script: script?.text ?? ''});
      script = null;
      continue;
    }
    alone();
    if (file.kind === 'both') runs.push({path, report: file.report, script: file.text});
    if (file.kind === 'script') script = {path, text: file.text};
    if (file.kind === 'neither') wrong.push({path, status: file.status, why: file.why});
  }
  alone();
  return {runs, wrong};
}

// What a file holds: a script, a report, a script with its report behind it as `audit` takes it, or neither and why.
function read_file(path) {
  let text;
  try {
    text = readFileSync(path === '-' ? 0 : path, 'latin1');
  } catch (error) {
    if (!error.syscall) throw error;
    return {kind: 'neither', status: 3, why: error.message};
  }
  const first = text.split('\n', 1)[0];
  if (first.startsWith('report ')) return {kind: 'report', text};
  if (first.startsWith('shrinkers ')) {
    const end = text.indexOf('\nend\n') + '\nend\n'.length;
    return end < '\nend\n'.length || end === text.length ?
        {kind: 'script', text} :
        {kind: 'both', text: text.slice(0, end), report: text.slice(end)};
  }
  return {kind: 'neither', status: 2, why: why_neither(text, first)};
}

function why_neither(text, first) {
  if (text === '') return 'the file is empty, and a script or a report is wanted';
  if (/^refused [0-9]+ [A-Za-z]+$/.test(first))
    return `\`${first}\` is what the program writes of a script that it refuses, and no report`;
  return `neither a script, whose first line is ${FIRST.script}, nor a report, whose first line is ${
      FIRST.report}; this one is ${JSON.stringify(first.slice(0, 60))}`;
}
