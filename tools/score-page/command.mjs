// The command line: pages and traces of reports, and whether reports have an order.

import {mkdirSync, writeFileSync} from 'node:fs';

import {page_of} from './bundle.mjs';
import {read_run} from './check.mjs';
import {runs_of} from './files.mjs';
import {trace_of} from './trace.mjs';

const USAGE = `usage: tools/score [SCRIPT] REPORT > PAGE.html
       tools/score -o FOLDER [SCRIPT] REPORT [[SCRIPT] REPORT ..]
       tools/score --json [SCRIPT] REPORT > TRACE.json
       tools/score --json -o FOLDER [SCRIPT] REPORT [[SCRIPT] REPORT ..]
       tools/score --check [SCRIPT] REPORT [[SCRIPT] REPORT ..]
A script comes before its report; a file may also be a script with its report behind it, and - is standard input.
`;

/** Wrong words, or a file that can't be written: what is said of it, and the status. */
class Ending extends Error {
  constructor(status, message) {
    super(message);
    this.status = status;
  }
}

const say = text => process.stderr.write(`tools/score: ${text}\n`);

// Whether the report has an order and no fault, as lines; the status.
function check({path, report, script}) {
  const run = read_run(report, script), told = run.error ? [run.error] : run.faults.map(fault => fault.words);
  if (!told.length) told.push(`an order of its ${run.row.length} steps was found${open_places(run.open)}`);
  process.stdout.write(told.map(line => `${path}: ${line}\n`).join(''));
  return run.error || run.faults.length ? 1 : 0;
}

const open_places = open =>
    open ? `; at ${open} place${open === 1 ? '' : 's'} the order of deferred work was left undecided` : '';

const name_of = path => (path === '-' ? 'a report' : path.replace(/^.*\//, '').replace(/\.(report|input)$/, ''));

// Writes the page or the trace of a report, to a file of the folder or to standard output; the status. A fault is told, and the
// report is drawn all the same.
function draw({path, report, script}, {json, folder}) {
  const run = read_run(report, script), name = name_of(path);
  if (run.error) {
    process.stderr.write(`${path}: ${run.error}\n`);
    return 1;
  }
  for (const fault of run.faults) process.stderr.write(`${path}: ${fault.words}\n`);
  const text = json ? trace_of(name, run) : page_of(name, report, script);
  if (folder === null)
    process.stdout.write(text);
  else {
    const file = `${folder}/${name}.${json ? 'json' : 'html'}`;
    writeFileSync(file, text);
    process.stdout.write(`${file}\n`);
  }
  return run.faults.length ? 1 : 0;
}

// What the words ask for: whether to check or to write a trace, the folder for files or null, and the paths.
function asked_by(words) {
  const asked = {check: false, json: false, folder: null, paths: []};
  for (let at = 0; at < words.length; at++) {
    if (words[at] === '--check' || words[at] === '--json')
      asked[words[at].slice(2)] = true;
    else if (words[at] === '-o' && at + 1 < words.length)
      asked.folder = words[++at];
    else if (words[at].startsWith('-') && words[at] !== '-')
      throw new Ending(2, words[at] === '-o' ? '-o takes a FOLDER' : `${words[at]} is no option`);
    else
      asked.paths.push(words[at]);
  }
  if (!asked.paths.length) throw new Ending(2, 'a REPORT is wanted');
  if (asked.check && (asked.json || asked.folder !== null))
    throw new Ending(2, '--check draws nothing, so it takes neither --json nor -o');
  return asked;
}

function main(words) {
  if (['-h', '--help'].includes(words[0]) && words.length === 1) {
    process.stdout.write(USAGE);
    return 0;
  }
  const asked = asked_by(words), {folder} = asked, {runs, wrong} = runs_of(asked.paths);
  for (const {path, why} of wrong) say(`${path}: ${why}`);
  let status = Math.max(0, ...wrong.map(one => one.status));
  if (!asked.check && folder === null && runs.length > 1)
    throw new Ending(2, 'several reports take -o FOLDER, into which their files are written');
  if (folder !== null) mkdirSync(folder, {recursive: true});
  for (const run of runs) status = Math.max(status, asked.check ? check(run) : draw(run, asked));
  return status;
}

process.stdout.on('error', error => {
  if (error.code !== 'EPIPE') say(`standard output: ${error.message}`);
  process.exit(3);
});
try {
  process.exitCode = main(process.argv.slice(2));
} catch (error) {
  if (!error.syscall && !(error instanceof Ending)) throw error;
  say(error.message);
  if (error.status === 2) process.stderr.write(USAGE);
  process.exitCode = error.status ?? 3;
}
