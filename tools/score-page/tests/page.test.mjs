// The page in a headless Chromium: it draws each example, and pointing, keys, search and a report that is refused do what
// they should. Skipped where there is no Chromium.

import assert from 'node:assert/strict';
import {mkdtempSync, readFileSync, rmSync, writeFileSync} from 'node:fs';
import {tmpdir} from 'node:os';
import {join} from 'node:path';
import {after, before, test} from 'node:test';
import {fileURLToPath} from 'node:url';

import {page_of} from '../bundle.mjs';

import {Browser, chromium} from './browser.mjs';
import {example, EXAMPLES, reports_of, second_form} from './cases.mjs';
import {many} from './many.mjs';

const path = chromium(), options = path ? {} : {skip: 'no Chromium here'};
const folder = mkdtempSync(join(tmpdir(), 'score-pages-'));
let browser;

before(async () => {
  if (path) browser = await Browser.start(path);
}, {timeout: 120000});
after(async () => {
  if (browser) await browser.stop();
  rmSync(folder, {recursive: true, force: true});
});

// A page of a report, opened.
async function open({name, report, script}, form = 'light') {
  const file = join(folder, `${name}.html`);
  writeFileSync(file, page_of(name, report, script));
  await browser.size(1400, 800, form);
  await browser.open(`file://${file}`);
  assert.deepEqual(browser.errors(), []);
}

const panel = () => browser.value('document.getElementById("panel").innerText');
const cursor = () => browser.value('page.view.cursor ? [page.view.cursor.row.label, page.view.cursor.at] : null');

// Where a step of a row stands on the screen.
const place = (label, at) => browser.value(`(() => { const row = page.score.rows.find(one => one.label === ${
    JSON.stringify(label)}), box = page.scroller.getBoundingClientRect();
  return [box.left + page.picture.x(${at}) + page.view.zoom / 2, box.top + row.y + row.h / 2 - page.view.top]; })()`);

test('each example is drawn, in both forms, with no network and no error', options, async () => {
  for (const one of [...reports_of(EXAMPLES), ...reports_of('races'), second_form()])
    for (const form of ['light', 'dark']) {
      await open(one, form);
      const {colours, paper, rows, texts, asked} = await browser.value(`(() => {
      const canvas = page.picture.canvas, data = canvas.getContext('2d').getImageData(0, 0, canvas.width, canvas.height).data, colours = new Set();
      for (let at = 0; at < data.length; at += 4) colours.add(data[at] << 16 | data[at + 1] << 8 | data[at + 2]);
      const small = [...document.body.querySelectorAll('*')].filter(one => one.innerText && parseFloat(getComputedStyle(one).fontSize) < 12).length;
      return { colours: colours.size, paper: data[0] + data[1] + data[2], rows: page.score.rows.length, texts: small, asked: performance.getEntriesByType('resource').length };
    })()`);
      assert.ok(colours > 12, `${one.name}: ${colours} colours`);
      assert.equal(paper > 384, form === 'light', form);
      assert.ok(rows > 5);
      assert.equal(texts, 0, 'text of less than 12 px');
      assert.equal(asked, 0, 'the network was asked');
    }
  assert.ok(!/https?:\/\//.test(readFileSync(join(folder, 'first.html'), 'utf8')));
});

test('pointing at a command shows its steps, as words and as lines', options, async () => {
  await open(example('offline'));
  const before_lines = await browser.value('page.picture.drawn');
  const at = await browser.value('page.score.commands.get("1.1").steps[3].at');
  await browser.move(...await place('worker 1', at));
  const text = await panel();
  for (const words
           of [/worker 1, command 1/, /put \/a 0 dentry k4 =v4/, /added 0 0 1 1/, /finds the group \/a online/,
               /charges \/a, whose usage was 1 \(operation 1\)/,
               /adds k4 of \/a with =v4: entry 1 of the list of \/a, node 0, id 0/])
    assert.match(text, words);
  assert.equal(await browser.value('page.view.hover.number'), 1);
  assert.ok(await browser.value('page.picture.drawn') > before_lines, 'lines');
  await browser.move(1390, 790);
  assert.doesNotMatch(await panel(), /worker 1, command 1/);
});

test('pointing at a list shows what it held at that moment, and a click keeps it', options, async () => {
  await open(example('offline'));
  const [first, last] = await browser.value(
      '(() => { const { at } = page.score.rows.find(row => row.name === "0 0 1"); return [at[1], at[2]]; })()');
  await browser.move(...await place('/a · dentry', first));
  const held = await panel();
  assert.match(held, /list of \/a · dentry, after step/);
  assert.match(held, /holds 2 objects after 2 of 3 entries/);
  assert.match(held, /k1\s+=v1\s+\/a\/b\s+0\.0/);
  assert.match(held, /k4\s+=v4\s+\/a\s+1\.1/);
  assert.match(held, /worker 1, command 1/, 'the command that made the entry');
  await browser.click(...await place('/a · dentry', last));
  await browser.move(1390, 790);
  assert.match(await panel(), /holds 0 objects after 3 of 3 entries/);
  assert.deepEqual(await cursor(), ['/a · dentry', last]);
});

test('arrows go from step to step and from worker to worker, and on to the other rows', options, async () => {
  await open(example('offline'));
  const steps = await browser.value(
      'page.run.row.filter(step => step.worker === 0 && step.command !== undefined).map(step => step.at)');
  for (const at of steps) {
    await browser.key('ArrowRight');
    assert.deepEqual(await cursor(), ['worker 0', at]);
  }
  await browser.key('ArrowRight');
  assert.deepEqual(await cursor(), ['worker 0', steps.at(-1)], 'nothing is behind the last');
  for (const at of steps.slice(0, -1).reverse()) {
    await browser.key('ArrowLeft');
    assert.equal((await cursor())[1], at);
  }
  await browser.key('End');
  assert.equal((await cursor())[1], steps.at(-1));
  await browser.key('Home');
  assert.equal((await cursor())[1], steps[0]);
  const begins = await browser.value('[0, 1, 2].map(number => page.score.commands.get(`0.${number}`).from)');
  await browser.key('ArrowRight', true);
  assert.equal((await cursor())[1], begins[1]);
  await browser.key('ArrowRight', true);
  assert.equal((await cursor())[1], begins[2]);
  await browser.key('ArrowLeft', true);
  assert.equal((await cursor())[1], begins[1]);
  const labels = await browser.value('page.score.rows.filter(row => row.kind !== "title").map(row => row.label)');
  for (const label of labels.slice(1)) {
    await browser.key('ArrowDown');
    assert.equal((await cursor())[0], label);
  }
  for (const label of labels.slice(0, -1).reverse()) {
    await browser.key('ArrowUp');
    assert.equal((await cursor())[0], label);
  }
  await browser.key('Escape');
  assert.equal(await cursor(), null);
});

test('the keys tell the same as the pointer', options, async () => {
  await open(example('limit'));
  const label = '/a · dentry',
        moments = await browser.value(`[...page.score.rows.find(row => row.label === "${label}").moments]`);
  const rows = await browser.value('page.score.rows.filter(row => row.kind !== "title").map(row => row.label)');
  for (let down = 0; down <= rows.indexOf(label); down++) await browser.key('ArrowDown');
  await browser.key('Home');
  for (const at of moments) {
    assert.deepEqual(await cursor(), [label, at]);
    const by_keys = await panel();
    await browser.move(...await place(label, at));
    assert.equal(await panel(), by_keys);
    await browser.move(1390, 790);
    await browser.key('ArrowRight');
  }
  assert.match(await browser.value('document.getElementById("said").textContent'), /a · dentry, step \d+: /);
});

test('plus and minus zoom around the step that is pointed at, nought shows all', options, async () => {
  await open(example('limit'));
  const zoom = () => browser.value('page.view.zoom'), whole = await zoom();
  for (let turn = 0; turn < 30; turn++) await browser.key('ArrowRight');
  await browser.keys('+', '+', '+');
  assert.ok(Math.abs(await zoom() / whole - 1.5 ** 3) < 0.01);
  const [, at] = await cursor(), x = await browser.value(`page.picture.x(${at})`);
  assert.ok(x > 200 && x < await browser.value('page.view.width'), 'the step is still seen');
  await browser.key('-');
  assert.ok(Math.abs(await zoom() / whole - 1.5 ** 2) < 0.01);
  await browser.keys('+', '+', '+', '+', 'End');
  assert.ok(await browser.value('page.view.left') > 0);
  const end = await browser.value(`page.picture.x(${(await cursor())[1]})`);
  assert.ok(end > 200 && end < await browser.value('page.view.width'), 'the picture follows the step');
  await browser.key('0');
  assert.ok(Math.abs(await zoom() - whole) < 1e-9);
});

test('slash searches a key, a group, a command or an answer', options, async () => {
  await open(example('tenants'));
  const found = async words => {
    await browser.key('Escape');
    await browser.key('/');
    assert.equal(await browser.value('document.activeElement.id'), 'search');
    await browser.keys(...words);
    return panel();
  };
  assert.match(await found('wal'), /^5 found for “wal”/);
  await browser.key('Enter');
  assert.match(await panel(), /worker 0, command 8/);
  assert.equal((await cursor())[1], await browser.value('page.score.commands.get("0.8").from'));
  await browser.key('Enter');
  assert.match(await panel(), /pin \/db\/log 1 buffer wal/);
  await browser.key('Enter', true);
  await browser.key('Enter', true);
  assert.equal((await cursor())[1], await browser.value('page.score.commands.get("0.12").from'), 'around to the last');
  assert.match(await found('group /web/api/v1'), /found for “group \/web\/api\/v1”\n[^]*\/web\/api\/v1/);
  await browser.key('Enter');
  assert.equal((await cursor())[0], '/web/api/v1');
  assert.match(await found('0.13'), /worker 0, command 13/);
  assert.match(await found('dropped'), /^2 found/);
  assert.match(await found('nothing_of_that'), /^0 found/);
  await browser.key('Escape');
  assert.equal(await browser.value('document.getElementById("search").value'), '');
});

test('a report is searched without its script too', options, async () => {
  await open({...example('tenants'), script: ''});
  await browser.keys('/', ...'wal');
  assert.match(await panel(), /^5 found for “wal”/);
});

test('who lost the race with an offline is found by one word', options, async () => {
  const [race] = reports_of('races');
  await open(race);
  await browser.keys('/', ...'closed added', 'Enter');
  const text = await panel();
  assert.match(text, /^1 found for “closed added”/);
  assert.match(text, /worker 6, command 24/);
  assert.match(text, /finds the list of \/g0\/g3, node 0, id 0 closed/);
  assert.match(text, /adds k1 of \/g0\/g3 with =v6_24: entry \d+ of the list of \/g0, node 0, id 0/);
  assert.match(
      text,
      /Its object: moved to the list of \/, node 0, id 0 at step \d+, then at the end on the list of \/, node 0, id 0\./);
});

const full = 'bit 0 1 0000000000000003', lost = 'bit 0 1 0000000000000002';

test('a lost bit is told above the picture, and its list is red', options, async () => {
  const {script, report} = example('container-leaves');
  assert.ok(report.includes(full));
  await open({name: 'lost', script, report: report.replace(full, lost)});
  assert.match(
      await browser.value('document.getElementById("faults").innerText'),
      /^A bit is lost: the list of \/host, node 0, cache dentry/);
  const red = () => browser.value(`(() => {
    const canvas = page.picture.canvas, {data} = canvas.getContext('2d').getImageData(0, 0, canvas.width, canvas.height);
    let count = 0;
    for (let at = 0; at < data.length; at += 4) if (data[at] === 0xd0 && data[at + 1] === 0x02 && data[at + 2] === 0x1b) count += 1;
    return count; })()`);
  assert.ok(await red() > 200, 'red on the picture');
  await browser.value('document.querySelector("#faults button").click()');
  await browser.settle();
  assert.equal((await cursor())[0], '/host · dentry');
  assert.match(await panel(), /^list of \/host · dentry, after step[^]*A bit is lost/);
  await open(example('container-leaves'));
  assert.equal(await browser.value('document.getElementById("faults").hidden'), true);
  assert.equal(await red(), 0);
});

test('the bit of a list is drawn and told, and setting it is a step', options, async () => {
  await open(example('container-leaves'));
  const row = 'page.score.rows.find(row => row.label === "/host · dentry")';
  const at = await browser.value('page.run.row.find(step => step.on === "set" && step.list === "0 0 1").at');
  assert.deepEqual(await browser.value(`${row}.bit.map(span => span.state)`), ['clear', 'set']);
  assert.equal(await browser.value(`${row}.bit[1].from`), at);
  await browser.value(`page.go(${row}, ${at})`);
  const set = await panel();
  assert.match(set, /The bit is set: a walk of the group asks the cache/);
  assert.match(set, /sets the bit of \/host, dentry/);
  await browser.value(`page.go(${row}, ${at - 1})`);
  assert.match(await panel(), /The bit is clear/);
});

test('the lists of ids that no cache had are behind one row', options, async () => {
  await open(example('offline'));
  assert.ok(await browser.value('page.score.rows.every(row => row.kind !== "fold")'));
  await open({name: 'fold', report: unregistered(), script: ''});
  const lists = () => browser.value('page.score.rows.filter(row => row.kind === "list").map(row => row.label)');
  assert.deepEqual(await lists(), ['/ · c', '/a · c']);
  await browser.value('page.toggle(page.score.rows.find(row => row.kind === "fold"))');
  assert.deepEqual(await lists(), ['/ · c', '/a · c', '/ · id 1', '/a · id 1']);
  await browser.key('End');
  for (let down = 0; down < 20; down++) await browser.key('ArrowDown');
  assert.equal((await cursor())[0], '/a · id 1');
  await browser.value('page.toggle(page.score.rows.find(row => row.kind === "fold"))');
  await browser.keys('/', ...'id 1', 'Enter');
  assert.equal((await cursor())[0], '/ · id 1', 'a hidden row that is found is shown');
  assert.deepEqual(browser.errors(), []);
});

// A group that went offline, with lists of an id that no cache had.
function unregistered() {
  const moved = id => [`list ${id} 0 0`, 'moved 1 0', `list ${id} 0 1`, 'closed'];
  return [
    'report 1', 'size 1 2', 'group 0 /', 'group 1 /a', 'cache 0 c', 'pool 0 registered 0 0 0', 'tree 0 begin 1',
    'tree 1 done 1', 'reply 0 0 done 1 0 0', ...moved(0), ...moved(1), 'bit 0 1 0000000000000000', 'lookups 0 0',
    'lookups 1 0', 'total 0 0 0 1 0', 'end', ''
  ].join('\n');
}

test('a report that is refused says why, and another is opened after it', options, async () => {
  await open(example('first'));
  const {root} = await browser.send('DOM.getDocument'),
        {nodeId} = await browser.send('DOM.querySelector', {nodeId: root.nodeId, selector: '#files'});
  const give = async (...texts) => {
    const files = texts.map((text, at) => {
      const file = join(folder, `given_${at}`);
      writeFileSync(file, text);
      return file;
    });
    await browser.value('page.run = "old"');
    await browser.send('DOM.setFileInputFiles', {nodeId, files});
    await browser.until('page.run !== "old"');
    await browser.settle();
    return browser.value(
        '[document.getElementById("main").hidden, document.getElementById("refused").hidden, document.getElementById("refused").textContent, document.getElementById("total").textContent]');
  };
  const offline = example('offline');
  assert.deepEqual(await give(offline.report.replace('closed\n', 'shut\n')), [
    true, false,
    'The report is refused. Line 27: expected a line of form 1 that may stand here: an entry, `item`, `list`, `bit`, `deferred`, `use`, `lookups` or `total`, found "shut"',
    ''
  ]);
  await browser.keys('ArrowRight', '+', 'Escape');
  assert.match(
      (await give(reports_of('wrong').find(({name}) => name === 'charges_cross').report))[2],
      /^There is no order of these steps\. The shortest cycle:\n {2}worker 0/);
  assert.match((await give(offline.report, example('first').script))[2], /^The report is not of this script/);
  const [main, refused, , total] = await give(offline.report, offline.script);
  assert.deepEqual([main, refused], [false, true]);
  assert.match(total, /^6 commands · 2 added/);
  assert.deepEqual(browser.errors(), []);
});

// A walk of so many groups, by one command.
function wide(groups) {
  const numbers = Array.from({length: groups}, (_, at) => at + 1);
  return [
    'report 2', 'size 1 1', 'group 0 /', ...numbers.map(at => `group ${at} /g${at}`), 'cache 0 c',
    'pool 0 registered 0 0 0', 'reply 0 0 walked 0', 'walk 0 0 0 12 fs ran 0', 'try 0 0 held empty 0',
    ...numbers.flatMap(at => [`walk ${at} ${at} 0 12 fs ran 0`, 'map 0 0000000000000000']),
    ...numbers.map(at => `bit 0 ${at} 0 0000000000000000`), 'lookups 0 1', `total 0 0 0 1 ${groups + 1}`, 'end', ''
  ].join('\n');
}

test('the panel shows some hundred lines and says how many more there are', options, async () => {
  await open({name: 'wide', report: wide(250), script: ''});
  await browser.key('ArrowRight');
  const steps = await browser.value('page.score.commands.get("0.0").steps.length');
  assert.equal(steps, 755);
  assert.equal(await browser.value('document.querySelectorAll("#panel .steps tr").length'), 300);
  assert.match(await panel(), /and 455 more steps after these/);
  for (let turn = 0; turn < 200; turn++) await browser.key('ArrowRight');
  assert.match(await panel(), /and 50 more steps before these[^]*and 405 more steps after these/);
  await browser.key('End');
  assert.match(await panel(), /and 455 more steps before these/);
});

test(
    '20,000 commands: only what is seen is drawn, and a turn of the picture takes no time that is noticed', options,
    async context => {
      await open({name: 'many', ...many(40, 500, 16)});
      assert.equal(await browser.value('page.score.commands.size'), 20000);
      const took = [];
      const turn = async () => {
        await browser.settle();
        took.push(await browser.value('(page.draw(), page.took)'));
        assert.ok(await browser.value('page.picture.drawn') < 30000, 'more is drawn than there are dots for');
      };
      await turn();
      for (const key of ['ArrowRight', '+', '+', '+', '+', '+', '+', 'End', '-', 'ArrowDown', 'Home', '0']) {
        await browser.key(key);
        await turn();
      }
      await browser.value('page.scroller.scrollTop = 1e6');
      await turn();
      await browser.keys('ArrowRight', '+', '+', '+', '+', '+', '+', '+', '+', '+', '+', '+', '+', '+', '+');
      await turn();
      assert.ok(await browser.value('page.picture.drawn') < 2000);
      took.sort((one, other) => one - other);
      context.diagnostic(
          `a drawing takes ${took[took.length >> 1].toFixed(1)} ms, at most ${took.at(-1).toFixed(1)} ms`);
      assert.ok(took[took.length >> 1] < 100);
      await browser.keys('/', ...'added');
      assert.match(await panel(), /^5\d\d\d found[^]*and \d+ more after these/);
      await browser.key('Escape');
      await browser.value('page.go(page.score.rows.find(row => row.kind === "list"), page.score.steps - 1)');
      assert.match(await panel(), /and \d+ more objects/);
      assert.ok(await browser.value('document.querySelectorAll("#panel *").length') < 5000);
    });

test('print has the whole run in the light form, and the screen is as before afterwards', options, async () => {
  await open(example('limit'), 'dark');
  await browser.keys('ArrowRight', '+', '+');
  const view =
            'JSON.stringify([page.view.zoom, page.view.left, page.view.width, page.view.height, page.view.printing])',
        kept = await browser.value(view);
  const pdf = await browser.print();
  assert.equal(pdf.subarray(0, 5).toString(), '%PDF-');
  await browser.settle();
  assert.equal(await browser.value(view), kept);
  await browser.value('page.print(true)');
  const [width, height, paper] =
      await browser.value('[page.view.width, page.view.height, page.picture.pen.getImageData(0, 0, 1, 1).data[0]]');
  assert.deepEqual([width, height, paper], [1040, await browser.value('page.score.height'), 255]);
  await browser.value('page.print(false)');
});

test('a page is read by its file name alone, also where it is in another folder', options, async () => {
  assert.ok(fileURLToPath(EXAMPLES).endsWith('/examples/'));
  const text = page_of('a<b>&"c', example('first').report, '');
  assert.ok(text.includes('<title>a&#60;b&#62;&#38;&#34;c: a run of shrinkers</title>'));
});
