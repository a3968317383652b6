// Drives headless Chromium over a pipe, by the DevTools protocol.

import {spawn} from 'node:child_process';
import {mkdtempSync, rmSync, writeFileSync} from 'node:fs';
import {tmpdir} from 'node:os';
import {join} from 'node:path';

export const sleep = milliseconds => new Promise(done => setTimeout(done, milliseconds));

export class Browser {
    static async start() {
        const browser = new Browser();
        browser.profile = mkdtempSync(join(tmpdir(), 'ceromby-chromium-'));
        const options = ['--headless=new', '--no-sandbox', '--disable-gpu', '--remote-debugging-pipe', `--user-data-dir=${browser.profile}`];
        browser.child = spawn('chromium', options, {stdio: ['ignore', 'ignore', 'ignore', 'pipe', 'pipe']});
        browser.listen();
        const {targetId} = await browser.send('Target.createTarget', {url: 'about:blank'});
        browser.session = (await browser.send('Target.attachToTarget', {targetId, flatten: true})).sessionId;
        for (const domain of ['Page', 'Runtime', 'Log', 'Network']) await browser.send(`${domain}.enable`);
        return browser;
    }

    listen() {
        this.sent = 0;
        this.waiting = new Map();
        this.faults = [];
        this.requests = [];
        let rest = '';
        this.child.stdio[4].on('data', chunk => {
            const messages = (rest + chunk).split('\0');
            rest = messages.pop();
            for (const message of messages) this.take(JSON.parse(message));
        });
    }

    take({id, result, error, method, params}) {
        if (id) {
            const [done, failed] = this.waiting.get(id);
            this.waiting.delete(id);
            return error ? failed(new Error(error.message)) : done(result);
        }
        if (method === 'Runtime.exceptionThrown') this.faults.push(params.exceptionDetails.exception?.description);
        if (method === 'Log.entryAdded' && params.entry.level === 'error') this.faults.push(params.entry.text);
        if (method === 'Page.javascriptDialogOpening') this.faults.push(`a dialog: ${params.message}`);
        if (method === 'Network.requestWillBeSent') this.requests.push(params.request.url);
    }

    send(method, params = {}) {
        return new Promise((done, failed) => {
            this.waiting.set(++this.sent, [done, failed]);
            this.child.stdio[3].write(JSON.stringify({id: this.sent, method, params, sessionId: this.session}) + '\0');
        });
    }

    async look({width, height, dark = false, still = false}) {
        await this.send('Emulation.setDeviceMetricsOverride', {width, height, deviceScaleFactor: 1, mobile: width < 600});
        await this.send('Emulation.setTouchEmulationEnabled', {enabled: width < 600});
        const features = [{name: 'prefers-color-scheme', value: dark ? 'dark' : 'light'},
            {name: 'prefers-reduced-motion', value: still ? 'reduce' : 'no-preference'}];
        await this.send('Emulation.setEmulatedMedia', {features});
    }

    async open(url) {
        await this.send('Page.navigate', {url: 'about:blank'});
        await this.send('Page.navigate', {url});
        while (!await this.run(`document.readyState === 'complete' && location.protocol === 'file:'`)) await sleep(20);
    }

    async run(expression) {
        const {result, exceptionDetails} = await this.send('Runtime.evaluate', {expression, awaitPromise: true, returnByValue: true});
        if (exceptionDetails) throw new Error(exceptionDetails.exception?.description ?? exceptionDetails.text);
        return result.value;
    }

    async press(key) {
        const text = key.length === 1 ? key : undefined;
        await this.send('Input.dispatchKeyEvent', {type: 'keyDown', key, text});
        await this.send('Input.dispatchKeyEvent', {type: 'keyUp', key});
    }

    async click(selector) {
        const {x, y} = await this.run(`(() => {
            const node = document.querySelector(${JSON.stringify(selector)});
            node.scrollIntoView({block: 'center'});
            const box = node.getBoundingClientRect();
            return {x: box.x + box.width / 2, y: box.y + box.height / 2};
        })()`);
        await this.send('Input.dispatchMouseEvent', {type: 'mouseMoved', x, y});
        for (const type of ['mousePressed', 'mouseReleased']) {
            await this.send('Input.dispatchMouseEvent', {type, x, y, button: 'left', clickCount: 1});
        }
    }

    async swipe(from, to, y) {
        await this.send('Input.dispatchTouchEvent', {type: 'touchStart', touchPoints: [{x: from, y}]});
        for (let part = 1; part <= 4; part++) {
            await this.send('Input.dispatchTouchEvent', {type: 'touchMove', touchPoints: [{x: from + (to - from) * part / 4, y}]});
        }
        await this.send('Input.dispatchTouchEvent', {type: 'touchEnd', touchPoints: []});
    }

    async picture(file, clip) {
        const {data} = await this.send('Page.captureScreenshot', {format: 'png', clip});
        writeFileSync(file, Buffer.from(data, 'base64'));
    }

    async stop() {
        const gone = new Promise(done => this.child.on('exit', done));
        this.session = undefined;
        this.send('Browser.close').catch(() => {});
        await gone;
        rmSync(this.profile, {recursive: true, force: true, maxRetries: 5});
    }
}
