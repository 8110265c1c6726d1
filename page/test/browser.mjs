// Chromium without a window, spoken to through its pipe.
import { spawn } from 'node:child_process';
import { mkdtempSync, rmSync, writeFileSync } from 'node:fs';
import { tmpdir } from 'node:os';
import { join } from 'node:path';

export class Browser {
  errors = [];
  #id = 0;
  #waiting = new Map();
  #events = new Map();

  static async start() {
    const browser = new Browser();
    browser.profile = mkdtempSync(join(tmpdir(), 'profile-'));
    const words = ['--headless=new', '--no-sandbox', '--disable-gpu', '--no-first-run', '--hide-scrollbars', '--disable-dev-shm-usage',
      `--user-data-dir=${browser.profile}`];
    browser.process = spawn('chromium', [...words, '--remote-debugging-pipe', 'about:blank'],
      { stdio: ['ignore', 'ignore', 'ignore', 'pipe', 'pipe'] });
    browser.process.on('exit', () => { for (const { reject } of browser.#waiting.values()) reject(new Error('the browser has ended')); });
    let rest = '';
    browser.process.stdio[4].setEncoding('utf8').on('data', data => {
      const parts = (rest + data).split('\0');
      rest = parts.pop();
      for (const part of parts) browser.#hear(JSON.parse(part));
    });
    const { targetId } = await browser.call('Target.createTarget', { url: 'about:blank' });
    browser.session = (await browser.call('Target.attachToTarget', { targetId, flatten: true })).sessionId;
    for (const domain of ['Page', 'Runtime', 'Log', 'Network']) await browser.call(`${domain}.enable`);
    return browser;
  }
  #hear({ id, method, params, result, error }) {
    if (id) {
      const { resolve, reject } = this.#waiting.get(id);
      this.#waiting.delete(id);
      return error ? reject(new Error(error.message)) : resolve(result);
    }
    const isError = method === 'Runtime.exceptionThrown' || method === 'Runtime.consoleAPICalled' && params.type === 'error'
      || method === 'Log.entryAdded' && params.entry.level === 'error';
    if (isError) this.errors.push(JSON.stringify(params).slice(0, 600));
    if (method === 'Network.requestWillBeSent'
      && !/^(file|about|data|blob):/.test(params.request.url)) this.errors.push(`asked for ${params.request.url}`);
    this.#events.get(method)?.(params);
  }
  call(method, params = {}) {
    const id = ++this.#id;
    this.process.stdio[3].write(`${JSON.stringify({ id, method, params, ...this.session && { sessionId: this.session } })}\0`);
    return new Promise((resolve, reject) => {
      const timer = setTimeout(() => reject(new Error(`${method}: no answer`)), 60000);
      this.#waiting.set(id, { resolve: value => { clearTimeout(timer); resolve(value); }, reject });
    });
  }
  event(method) { return new Promise(done => { this.#events.set(method, done); }); }

  /** The value of an expression on the page. */
  async evaluate(expression) {
    const { result, exceptionDetails } = await this.call('Runtime.evaluate', { expression, returnByValue: true, awaitPromise: true });
    if (exceptionDetails) throw new Error(`${expression}: ${exceptionDetails.exception?.description ?? exceptionDetails.text}`);
    return result.value;
  }
  /** Opens an address and waits until the page is ready. */
  async open(url) {
    await this.call('Page.navigate', { url: 'about:blank' });
    await this.call('Page.navigate', { url });
    await this.until('document.body?.dataset.ready');
  }
  async until(expression) {
    for (let k = 0; k < 400; k++) {
      if (await this.evaluate(expression).catch(() => false)) return;
      await new Promise(done => setTimeout(done, 25));
    }
    throw new Error(`never: ${expression}`);
  }
  size(width, height, scale = 1) {
    return this.call('Emulation.setDeviceMetricsOverride', { width, height, deviceScaleFactor: scale, mobile: false }); }
  media(media, features = {}) {
    return this.call('Emulation.setEmulatedMedia', { media,
      features: Object.entries(features).map(([name, value]) => ({ name, value })) }); }
  async #middle(selector) {
    const found = `document.querySelector(${JSON.stringify(selector)})`;
    if (await this.evaluate(`${found} === null`)) throw new Error(`no ${selector}`);
    await this.evaluate(`${found}.scrollIntoView({ block: 'nearest' })`);
    return this.evaluate(`(({ left, top, width, height }) => [left + width / 2, top + height / 2])(${found}.getBoundingClientRect())`);
  }
  async click(selector) {
    const [x, y] = await this.#middle(selector);
    for (const type of ['mousePressed', 'mouseReleased']) await this.call('Input.dispatchMouseEvent',
      { type, x, y, button: 'left', clickCount: 1 });
  }
  async point(selector) {
    const [x, y] = await this.#middle(selector);
    await this.call('Input.dispatchMouseEvent', { type: 'mouseMoved', x, y });
  }
  type(text) { return this.call('Input.insertText', { text }); }
  async key(key, code = 0) { for (const type of ['rawKeyDown', 'keyUp']) await this.call('Input.dispatchKeyEvent',
    { type, key, code: key, windowsVirtualKeyCode: code }); }
  async picture(file) { writeFileSync(file, Buffer.from((await this.call('Page.captureScreenshot', { format: 'png' })).data, 'base64')); }
  async print(file) {
    const { data } = await this.call('Page.printToPDF', { printBackground: true, preferCSSPageSize: true });
    writeFileSync(file, Buffer.from(data, 'base64'));
    return Buffer.from(data, 'base64').toString('latin1').match(/\/Type\s*\/Page\b/g)?.length ?? 0;
  }
  async end() {
    this.process.kill();
    await new Promise(done => { this.process.once('exit', done); });
    rmSync(this.profile, { recursive: true, force: true, maxRetries: 3 });
  }
}
