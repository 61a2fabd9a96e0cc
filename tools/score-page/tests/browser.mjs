// Drives a headless Chromium over its pipe: opens a page, presses keys, moves the pointer, looks at what is there.

import {spawn} from 'node:child_process';
import {accessSync, constants, mkdtempSync, rmSync} from 'node:fs';
import {tmpdir} from 'node:os';
import {join} from 'node:path';

/** The name of a Chromium that is here, or null. */
export function chromium() {
  const names = process.env.CHROMIUM ? [process.env.CHROMIUM] : ['chromium', 'chromium-browser', 'google-chrome'];
  const paths = (process.env.PATH ?? '').split(':');
  for (const name of names)
    for (const path of name.includes('/') ? [''] : paths) {
      const full = path ? join(path, name) : name;
      if (exists(full)) return full;
    }
  return null;
}

function exists(path) {
  try {
    accessSync(path, constants.X_OK);
    return true;
  } catch {
    return false;
  }
}

const PATIENCE = 180000;

const KEYS = {
  '+': 'Equal',
  '-': 'Minus',
  '/': 'Slash'
};
const CODES = {
  ArrowLeft: 37,
  ArrowUp: 38,
  ArrowRight: 39,
  ArrowDown: 40,
  Enter: 13,
  Escape: 27,
  Home: 36,
  End: 35,
  '.': 190,
  '-': 189,
  '+': 187,
  '/': 191
};

export class Browser {
  static async start(path) {
    const browser = new Browser();
    browser.home = mkdtempSync(join(tmpdir(), 'score-test-'));
    // It opens pages of these tests alone, and its sandbox can't be had everywhere that tests run.
    const flags = [
      '--headless=new', '--no-sandbox', '--remote-debugging-pipe', '--no-first-run', '--disable-gpu',
      '--disable-dev-shm-usage', '--hide-scrollbars', `--user-data-dir=${browser.home}`
    ];
    browser.child = spawn(path, [...flags, 'about:blank'], {stdio: ['ignore', 'ignore', 'ignore', 'pipe', 'pipe']});
    browser.waiting = new Map();
    browser.events = [];
    browser.last = 0;
    let rest = '';
    browser.child.stdio[4].on('data', piece => {
      const parts = (rest + piece).split('\0');
      rest = parts.pop();
      parts.forEach(text => browser.got(JSON.parse(text)));
    });
    const {targetId} = await browser.send('Target.createTarget', {url: 'about:blank'}, null);
    const {sessionId} = await browser.send('Target.attachToTarget', {targetId, flatten: true}, null);
    browser.session = sessionId;
    await browser.send('Page.enable');
    await browser.send('Runtime.enable');
    return browser;
  }

  got(message) {
    if (message.id === undefined) {
      this.events.push(message);
      return;
    }
    const {resolve, reject} = this.waiting.get(message.id);
    this.waiting.delete(message.id);
    if (message.error)
      reject(new Error(message.error.message));
    else
      resolve(message.result);
  }

  send(method, params = {}, session = this.session) {
    const id = ++this.last;
    this.child.stdio[3].write(JSON.stringify({id, method, params, ...(session ? {sessionId: session} : {})}) + '\0');
    return new Promise((resolve, reject) => {
      // A browser that says nothing ends the test, and doesn't hold it up for ever.
      const late =
          setTimeout(() => reject(new Error(`${method}: no answer within ${PATIENCE / 1000} seconds`)), PATIENCE);
      const done = end => value => {
        clearTimeout(late);
        end(value);
      };
      this.waiting.set(id, {resolve: done(resolve), reject: done(reject)});
    });
  }

  async size(width, height, form = 'light') {
    await this.send('Emulation.setDeviceMetricsOverride', {width, height, deviceScaleFactor: 1, mobile: false});
    await this.send('Emulation.setEmulatedMedia', {media: '', features: [{name: 'prefers-color-scheme', value: form}]});
  }

  async open(url) {
    this.events.length = 0;
    await this.send('Page.navigate', {url});
    await this.until('document.readyState === "complete"');
    await this.settle();
  }

  /** The value of an expression in the page. */
  async value(expression) {
    const {result, exceptionDetails} =
        await this.send('Runtime.evaluate', {expression, returnByValue: true, awaitPromise: true});
    if (exceptionDetails) throw new Error(exceptionDetails.exception?.description ?? exceptionDetails.text);
    return result.value;
  }

  async until(expression) {
    for (let turn = 0; turn < 600; turn++) {
      if (await this.value(expression).catch(() => false)) return;
      await new Promise(resolve => setTimeout(resolve, 50));
    }
    throw new Error(`never: ${expression}`);
  }

  /** Waits until the page has drawn. */
  settle() {
    return this.value('new Promise(done => requestAnimationFrame(() => requestAnimationFrame(() => done(true))))');
  }

  async key(key, shift = false) {
    const event =
        {key, code: KEYS[key] ?? key, modifiers: shift ? 8 : 0, windowsVirtualKeyCode: CODES[key] ?? key.charCodeAt(0)};
    await this.send('Input.dispatchKeyEvent', {type: 'keyDown', ...event, ...(key.length === 1 ? {text: key} : {})});
    await this.send('Input.dispatchKeyEvent', {type: 'keyUp', ...event});
    await this.settle();
  }

  async keys(...keys) {
    for (const key of keys) await this.key(key);
  }

  async move(x, y) {
    await this.send('Input.dispatchMouseEvent', {type: 'mouseMoved', x, y});
    await this.settle();
  }

  async click(x, y) {
    for (const type of ['mousePressed', 'mouseReleased'])
      await this.send('Input.dispatchMouseEvent', {type, x, y, button: 'left', clickCount: 1});
    await this.settle();
  }

  async screenshot() {
    return Buffer.from((await this.send('Page.captureScreenshot', {format: 'png'})).data, 'base64');
  }

  async print() {
    return Buffer.from(
        (await this.send('Page.printToPDF', {printBackground: true, preferCSSPageSize: true})).data, 'base64');
  }

  /** Errors that the page threw since it was opened, and what it asked of the network. */
  errors() {
    return this.events.filter(event => event.method === 'Runtime.exceptionThrown')
        .map(event => event.params.exceptionDetails.exception?.description ?? event.params.exceptionDetails.text);
  }

  async stop() {
    const ended = new Promise(resolve => this.child.once('exit', resolve));
    await this.send('Browser.close', {}, null).catch(() => {});
    await ended;
    rmSync(this.home, {recursive: true, force: true, maxRetries: 5});
  }
}
