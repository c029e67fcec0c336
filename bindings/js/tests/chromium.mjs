// Starts Chromium, and controls it by the DevTools protocol over a pipe.
import {spawn} from "node:child_process";
import {once} from "node:events";
import {mkdtempSync, rmSync} from "node:fs";
import {tmpdir} from "node:os";

const FLAGS = ["--headless", "--no-sandbox", "--disable-gpu", "--disable-dev-shm-usage",
               "--remote-debugging-pipe", "--hide-scrollbars"];

export class Chromium {
    #process; #folder; #asked = new Map(); #listeners = new Set(); #count = 0; #rest = "";
    #ended;

    constructor() {
        this.#folder = mkdtempSync(`${tmpdir()}/chromium`);
        this.#process = spawn("chromium", [...FLAGS, `--user-data-dir=${this.#folder}`], {
            stdio: ["ignore", "ignore", "ignore", "pipe", "pipe"],
            env: {...process.env, HOME: this.#folder},
        });
        this.#process.stdio[4].setEncoding("utf8").on("data", (it) => this.#read(it));
        this.#ended = once(this.#process, "exit").then(([code, signal]) => {
            throw new Error(`Chromium ended with ${code ?? signal}`);
        });
        this.#ended.catch(() => {});
    }

    // Waits for something that doesn't come if Chromium has ended.
    wait(promise) {
        return Promise.race([promise, this.#ended]);
    }

    #read(text) {
        const messages = (this.#rest + text).split("\0");
        this.#rest = messages.pop();
        for (const message of messages.map((it) => JSON.parse(it))) {
            const {resolve, reject} = this.#asked.get(message.id) ?? {};
            if (message.error) {
                reject?.(new Error(message.error.message));
            }
            resolve?.(message.result);
            this.#listeners.forEach((it) => it(message));
        }
    }

    send(method, params = {}, sessionId = undefined) {
        const id = ++this.#count;
        this.#process.stdio[3].write(`${JSON.stringify({id, method, params, sessionId})}\0`);
        return this.wait(new Promise((resolve, reject) => {
            this.#asked.set(id, {resolve, reject});
        }));
    }

    // Calls `work` with each event of a page.
    listen(sessionId, work) {
        this.#listeners.add((it) => it.sessionId === sessionId && it.method
                            && work(it.method, it.params));
    }

    // Opens an empty page.
    async open() {
        const {targetId} = await this.send("Target.createTarget", {url: "about:blank"});
        const {sessionId} = await this.send("Target.attachToTarget", {targetId, flatten: true});
        const page = new Page(this, sessionId);
        await Promise.all(["Page", "Runtime", "Network", "Log"].map((it) => page.send(
            `${it}.enable`)));
        return page;
    }

    async close() {
        this.send("Browser.close").catch(() => {});
        await this.#ended.catch(() => {});
        rmSync(this.#folder, {recursive: true, force: true});
    }
}

// A page: `requests` are the URLs that it asked for, and `faults` what it threw or logged.
class Page {
    #chromium; #session; #loaded = () => {};
    requests = []; faults = [];

    constructor(chromium, session) {
        [this.#chromium, this.#session] = [chromium, session];
        chromium.listen(session, (method, params) => this.#hear(method, params));
    }

    #hear(method, params) {
        if (method === "Page.loadEventFired") {
            this.#loaded();
        } else if (method === "Network.requestWillBeSent") {
            this.requests.push(params.request.url);
        } else if (method === "Runtime.exceptionThrown") {
            this.faults.push(params.exceptionDetails.exception?.description ?? "thrown");
        } else if (method === "Log.entryAdded" && params.entry.level === "error") {
            this.faults.push(params.entry.text);
        }
    }

    send(method, params) {
        return this.#chromium.send(method, params, this.#session);
    }

    async go(url) {
        const loaded = new Promise((resolve) => { this.#loaded = resolve; });
        await this.send("Page.navigate", {url});
        await this.#chromium.wait(loaded);
    }

    // Returns the value of a function of no or of one argument, called in the page.
    async ask(work, given = undefined) {
        const {result, exceptionDetails} = await this.send("Runtime.evaluate", {
            expression: `(${work})(${JSON.stringify(given)})`, awaitPromise: true,
            returnByValue: true, userGesture: true});
        if (exceptionDetails) {
            throw new Error(exceptionDetails.exception?.description ?? exceptionDetails.text);
        }
        return result.value;
    }

    // Presses a key, given its name, and its code on Windows.
    async press(key, code, text = undefined, modifiers = 0) {
        const words = {key, code: key, windowsVirtualKeyCode: code, text, modifiers};
        await this.send("Input.dispatchKeyEvent", {type: "keyDown", ...words});
        await this.send("Input.dispatchKeyEvent", {type: "keyUp", ...words});
    }

    // Shows the page in a window of this width, in `light` or `dark`.
    async look(width, scheme) {
        await this.send("Emulation.setDeviceMetricsOverride", {
            width, height: 800, deviceScaleFactor: 1, mobile: false});
        await this.send("Emulation.setEmulatedMedia", {
            features: [{name: "prefers-color-scheme", value: scheme}]});
    }
}
