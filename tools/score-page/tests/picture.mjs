// Makes the picture that README shows: the example `offline`, and what its command `offline` does.
//
//   node tools/score-page/tests/picture.mjs docs/pictures/offline.png

import {mkdtempSync, rmSync, writeFileSync} from 'node:fs';
import {tmpdir} from 'node:os';
import {join} from 'node:path';
import {page_of} from '../bundle.mjs';
import {Browser, chromium} from './browser.mjs';
import {example} from './cases.mjs';

const folder = mkdtempSync(join(tmpdir(), 'score-picture-')), file = join(folder, 'page.html'),
      one = example('offline');
writeFileSync(file, page_of(one.name, one.report, one.script));
const browser = await Browser.start(chromium());
await browser.size(1240, 590);
await browser.open(`file://${file}`);
const at = await browser.value('page.score.commands.get("0.1").steps.find(step => step.kind === "moved").at');
await browser.value(`page.go(page.score.rows.find(row => row.label === 'worker 0'), ${at})`);
await browser.settle();
writeFileSync(process.argv[2], await browser.screenshot());
await browser.stop();
rmSync(folder, {recursive: true, force: true});
