// Where the tests' reports are.

import {readFileSync, readdirSync} from 'node:fs';

const here = new URL('./', import.meta.url);

export const EXAMPLES = new URL('../../../examples/', import.meta.url);

/** The reports of a folder of tests, each with its name, text and script. */
export function reports_of(folder) {
  const at = folder instanceof URL ? folder : new URL(`${folder}/`, here);
  return readdirSync(at).filter(name => name.endsWith('.report')).map(name => {
    const text = file => readFileSync(new URL(file, at), 'latin1'), base = name.replace(/\.report$/, '');
    return {name: base, report: text(name), script: text(`${base}.script`)};
  });
}

export const second_form = () => reports_of(here).find(({name}) => name === 'second_form');

export const example = name => reports_of(EXAMPLES).find(one => one.name === name);
