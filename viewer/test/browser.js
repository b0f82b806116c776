// Drives a headless Chromium over its debugging pipe (file descriptors 3 and 4), with node alone.
"use strict";
const { spawn } = require("node:child_process");
const fs = require("node:fs");
const os = require("node:os");
const path = require("node:path");

/** Milliseconds after which a wait is given up. */
const PATIENCE = 60_000;

class Browser {
    #calls = new Map();
    #next = 1;
    #rest = "";
    #gone = null;

    /** Starts the browser of that path, with a profile of its own that is thrown away. */
    constructor(program) {
        /** What the page told by itself: requests, exceptions, entries of its log. */
        this.events = [];
        this.profile = fs.mkdtempSync(path.join(os.tmpdir(), "viewer-"));
        // Without a sandbox, which a container may not allow: all that is opened is this repository's page.
        this.child = spawn(program, [
            "--headless=new", "--remote-debugging-pipe", `--user-data-dir=${this.profile}`, "--no-first-run",
            "--disable-gpu", "--disable-dev-shm-usage", "--hide-scrollbars", "--force-device-scale-factor=1",
            "--disable-background-networking", "--disable-component-update", "--no-sandbox", "about:blank",
        ], { stdio: ["ignore", "ignore", "ignore", "pipe", "pipe"] });
        this.child.stdio[4].setEncoding("utf8").on("data", (text) => this.#hear(text));
        this.child.stdio[3].on("error", () => this.#end(new Error("the browser doesn't listen")));
        this.child.on("error", (error) => this.#end(error));
        this.child.on("exit", () => this.#end(new Error("the browser ended")));
    }

    #hear(text) {
        const parts = (this.#rest + text).split("\0");
        this.#rest = parts.pop();
        for (const part of parts) {
            const { id, result, error, method, params } = JSON.parse(part);
            if (method) this.events.push({ method, params });
            const call = this.#calls.get(id);
            this.#calls.delete(id);
            if (error) call?.fail(new Error(error.message));
            else call?.done(result);
        }
    }

    #end(error) {
        this.#gone ??= error;
        for (const { fail } of this.#calls.values()) fail(error);
        this.#calls.clear();
    }

    /** Makes a call of the protocol. */
    call(method, params = {}) {
        if (this.#gone) return Promise.reject(this.#gone);
        const id = this.#next++;
        this.child.stdio[3].write(`${JSON.stringify({ id, method, params, sessionId: this.session })}\0`);
        return new Promise((done, fail) => this.#calls.set(id, { done, fail }));
    }

    /** Opens a page, and makes the calls after it its own. */
    async open(url) {
        const { targetId } = await this.call("Target.createTarget", { url: "about:blank" });
        const { sessionId } = await this.call("Target.attachToTarget", { targetId, flatten: true });
        this.session = sessionId;
        for (const domain of ["Page", "Runtime", "Log", "Network"]) await this.call(`${domain}.enable`);
        await this.call("Page.navigate", { url });
        await this.until(() => document.readyState === "complete" && location.href !== "about:blank");
    }

    /** What a function answers in the page; it and its arguments are sent as text. */
    async run(what, ...args) {
        const expression = `(${what})(...${JSON.stringify(args)})`;
        const { result, exceptionDetails } = await this.call("Runtime.evaluate",
            { expression, awaitPromise: true, returnByValue: true });
        if (exceptionDetails) throw new Error(exceptionDetails.exception?.description ?? exceptionDetails.text);
        return result.value;
    }

    /** Waits until a function of the page answers true; a page that is being left answers nothing. */
    async until(what, ...args) {
        const limit = Date.now() + PATIENCE;
        const ask = () => this.run(what, ...args).catch((error) => {
            if (!/navigated|context/.test(error.message)) throw error;
            return false;
        });
        while (!(await ask())) {
            if (Date.now() > limit) throw new Error(`gave up waiting for ${what}`);
            await new Promise((go) => setTimeout(go, 20));
        }
    }

    /** Presses a key. */
    async press(key, code = key) {
        const text = key === "Enter" ? "\r" : undefined;
        const windowsVirtualKeyCode = { Enter: 13, Tab: 9, End: 35, Home: 36, ArrowDown: 40, ArrowUp: 38, PageDown: 34, Escape: 27 }[key];
        await this.call("Input.dispatchKeyEvent", { type: "keyDown", key, code, text, windowsVirtualKeyCode });
        await this.call("Input.dispatchKeyEvent", { type: "keyUp", key, code, windowsVirtualKeyCode });
    }

    /** Clicks where an element is. */
    async click(selector, text = "") {
        const place = await this.run((selector, text) => {
            const element = [...document.querySelectorAll(selector)].find((one) => one.textContent.includes(text));
            element.scrollIntoView({ block: "nearest" });
            const box = element.getBoundingClientRect();
            return { x: box.x + Math.min(box.width / 2, 40), y: box.y + Math.min(box.height / 2, 20) };
        }, selector, text);
        for (const type of ["mousePressed", "mouseReleased"]) {
            await this.call("Input.dispatchMouseEvent", { type, ...place, button: "left", clickCount: 1 });
        }
    }

    /** Puts a file into an input of the page. */
    async choose(selector, file) {
        const { root } = await this.call("DOM.getDocument");
        const { nodeId } = await this.call("DOM.querySelector", { nodeId: root.nodeId, selector });
        await this.call("DOM.setFileInputFiles", { nodeId, files: [file] });
    }

    /** Sets the window's size and the machine's colours. */
    async look({ width = 1400, height = 1000, dark = false, print = false } = {}) {
        await this.call("Emulation.setDeviceMetricsOverride", { width, height, deviceScaleFactor: 1, mobile: false });
        await this.call("Emulation.setEmulatedMedia", {
            media: print ? "print" : "", features: [{ name: "prefers-color-scheme", value: dark ? "dark" : "light" }],
        });
    }

    /** Writes a picture of the window, with nothing under the mouse. */
    async picture(file) {
        await this.call("Input.dispatchMouseEvent", { type: "mouseMoved", x: 1, y: 1 });
        const { data } = await this.call("Page.captureScreenshot", { format: "png" });
        fs.writeFileSync(file, Buffer.from(data, "base64"));
    }

    async close() {
        this.session = undefined;
        const gone = this.#gone ?? new Promise((go) => this.child.once("exit", go));
        await this.call("Browser.close").catch(() => {});
        await gone;
        fs.rmSync(this.profile, { recursive: true, force: true, maxRetries: 5 });
    }
}

module.exports = { Browser };
