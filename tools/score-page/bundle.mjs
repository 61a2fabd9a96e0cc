// One page that needs nothing else: the modules, the style, a report and its script in one file.

import {readFileSync} from 'node:fs';

const MODULES = [
  'lines', 'replies', 'reading', 'script', 'replay',  'bits',    'answers', 'deferred', 'order',  'plans',  'steps',
  'words', 'check',   'rows',    'look',   'bitline', 'picture', 'search',  'panel',    'legend', 'listen', 'page'
];

const source = name => readFileSync(new URL(name, import.meta.url), 'utf8');

// A module as a function of its own, so that names of two modules don't meet; what it imports are those before it.
function wrapped(name) {
  const exported = [];
  const body = source(`${name}.mjs`)
                   .replace(
                       /^import \{([^}]*)\} from '\.\/([a-z]+)\.mjs';$/gm,
                       (_, names, from) => `const {${names}} = module_${from};`)
                   .replace(/^export (const|class|function) (\w+)/gm, (_, kind, first) => {
                     exported.push(first);
                     return `${kind} ${first}`;
                   });
  return `const module_${name} = (() => {\n${body}\nreturn { ${exported.join(', ')} };\n})();\n`;
}

// Text within a script element: no end tag can begin in it.
const embedded = value => JSON.stringify(value).replace(/</g, '\\u003c');

/** The page of a report; its steps are put in order when the page is opened. */
export function page_of(name, report, script) {
  const parts = {
    NAME: name.replace(/[&<>"]/g, sign => `&#${sign.charCodeAt(0)};`),
    STYLE: source('page.css'),
    MODULES: MODULES.map(wrapped).join('\n'),
    DATA: embedded({name, report, script}),
  };
  return source('page.html').replace(/\{\{([A-Z]+)\}\}/g, (_, part) => parts[part]);
}
