// Checks what the page shows of journals, in a real browser, against what was written by hand.
// main.js BROWSER [keep]
"use strict";
const assert = require("node:assert");
const fs = require("node:fs");
const path = require("node:path");
const { execFileSync } = require("node:child_process");
const { pathToFileURL } = require("node:url");
const { Browser } = require("./browser.js");
const { large } = require("./large.js");
const shown = require("./shown.js");
const { PAYMENTS, EVERYTHING, NETS_OF_30, NO_NETS } = require("./expected.js");

const [program, keep] = process.argv.slice(2);
const viewer = path.join(__dirname, "..");
const examples = path.join(viewer, "..", "examples");
const journals = path.join(__dirname, "journals");
const out = path.join(__dirname, "out");
const count = { passed: 0, failed: 0 };
const browser = new Browser(program);

/** Counts whether what the page shows is what it has to show, and tells where it isn't. */
function check(what, got, want) {
    try {
        assert.deepStrictEqual(got, want);
        count.passed += 1;
    } catch (error) {
        count.failed += 1;
        console.log(`FAILED ${what}\n${error.message}`);
    }
}

const see = (name, ...args) => browser.run(shown[name], ...args);
const textOf = (name) => {
    const folder = fs.existsSync(path.join(examples, `${name}.out`)) ? [examples, "out"] : [journals, "journal"];
    return fs.readFileSync(path.join(folder[0], `${name}.${folder[1]}`), "utf8");
};
const goTo = async (view) => {
    await browser.run((view) => { location.hash = view; }, view);
    await browser.until((view) => !document.getElementById(view.split("=")[0]).hidden, view);
};
const loaded = (name) => browser.until((name) =>
    !document.getElementById("journal").hidden && document.getElementById("journal-name").textContent === name, name);

/** Begins anew, with nothing read. */
async function fresh() {
    await browser.run(() => {
        history.replaceState(null, "", location.pathname);
        globalThis.isOld = true;
    });
    await browser.call("Page.reload");
    await browser.until(() => !globalThis.isOld && document.readyState === "complete" && Boolean(globalThis.Viewer?.thePage));
}

/** Pastes a text, as a user does. */
async function paste(text) {
    await fresh();
    await browser.click("#paste");
    await browser.run((text) => { document.getElementById("paste-text").value = text; }, text);
    await browser.click("#paste-box button", "Show");
    await loaded("pasted text");
}

/** Drops bytes as a file. */
async function drop(name, bytes) {
    await fresh();
    await browser.run((name, bytes) => {
        const data = new DataTransfer();
        data.items.add(new File([new Uint8Array(bytes)], name));
        for (const type of ["dragover", "drop"]) {
            document.body.dispatchEvent(new DragEvent(type, { dataTransfer: data, bubbles: true, cancelable: true }));
        }
    }, name, [...bytes]);
    await loaded(name);
}

/** A journal with one payment, in all views. */
async function checkPayment(name, want) {
    check(`${name}: steps`, await see("steps"), want.steps);
    check(`${name}: marks`, await see("badges"), want.marks);
    check(`${name}: report lines`, await see("reportLines"), want.report);
    if (want.sends) check(`${name}: sends`, await see("sends"), want.sends);
    if (want.shapes) check(`${name}: shapes`, await see("shapes"), want.shapes);
    if (want.facts) check(`${name}: facts`, (await see("facts")).filter((fact) => want.facts.includes(fact)), want.facts);
    if (want.due) check(`${name}: due moments`, (await see("asides")).filter((aside) => want.due.includes(aside)), want.due);
    check(`${name}: banner`, await see("banners"), [`✓ The report’s ${want.agrees} lines are what the entries come to.`]);
    await goTo("payments");
    check(`${name}: table`, await see("rows"), [want.row]);
    check(`${name}: stands out`, await browser.run(() => document.querySelectorAll(".stands-out").length), want.row[6].includes("in flight") ? 1 : 0);
    await goTo("whole");
    check(`${name}: nets`, await see("table", "Settlement and nets"), want.nets);
    check(`${name}: balances`, await see("table", "Balances"), want.balances);
    check(`${name}: items`, await see("table", "Reconciliation items"), want.items);
    check(`${name}: flight`, await browser.run(() => document.querySelector(".flight > p").textContent), want.flight);
    const cards = await see("cards");
    check(`${name}: cards`, Object.fromEntries(Object.keys(want.cards).map((card) => [card, cards[card]])), want.cards);
}

async function checkExamples() {
    execFileSync(path.join(viewer, "make_examples"), ["check"]);
    check("the page has all examples", await browser.run(() => Viewer.examples.map(({ name }) => name).sort()),
        fs.readdirSync(examples).filter((file) => file.endsWith(".out")).map((file) => file.slice(0, -4)).sort());
    for (const [name, want] of Object.entries(PAYMENTS)) {
        if (fs.existsSync(path.join(examples, `${name}.out`))) {
            await fresh();
            await browser.click("#examples button", name);
            await loaded(name);
        } else {
            await drop(`${name}.journal`, Buffer.from(textOf(name)));
        }
        await checkPayment(name, want);
    }
}

/** All kinds of lines; text that looks like markup; version 2.0. */
async function checkEverything() {
    await drop("everything.journal", Buffer.from(textOf("everything")));
    check("everything: table", await see("rows"), EVERYTHING.rows);
    for (const id of ["V2", "N1", "Z1", "T9", "F1", "K1", "C1", "D1"]) {
        await goTo(`payment=${id}`);
        await browser.until((id) => document.querySelector("#payment h3")?.textContent === id, id);
        check(`everything: steps of ${id}`, await see("steps"), EVERYTHING[id]);
    }
    await goTo("whole");
    check("everything: outcomes", await see("table", "Outcomes"), EVERYTHING.outcomes);
    check("everything: nets", await see("table", "Settlement and nets"), NETS_OF_30);
    check("everything: balances", await see("table", "Balances"), EVERYTHING.balances);
    check("everything: lines about no payment", await see("table", "Lines about no payment"), EVERYTHING.apart);
    check("everything: banner", await see("banners"), ["✓ The report’s 14 lines are what the entries come to."]);

    await goTo("payment=V2");
    await browser.until(() => document.querySelector("#payment h3").textContent === "V2");
    check("a note is text", (await see("facts")).filter((fact) => /^Note|^Version/.test(fact)), [EVERYTHING.note, EVERYTHING.version]);
    await browser.click(".step-head");
    const opened = await browser.run(() => ({
        lines: [...document.querySelectorAll(".step-body code")].map((code) => code.textContent),
        json: document.querySelector(".json").textContent,
        markup: document.querySelectorAll("#journal script, #journal b b, .step-body b").length,
        title: document.title,
    }));
    const line = textOf("everything").split("\n").find((text) => text.startsWith("E 1 "));
    check("a step tells its lines", opened.lines, [line, "M 1 SWITCH beta REQAUTH V2 30.00"]);
    check("a message is laid out", opened.json.split("\n").slice(0, 4), ["{", "  \"ReqPay\": {", "    \"Head\": {", "      \"msgId\": \"A1\","]);
    check("a message is whole", JSON.parse(opened.json), JSON.parse(line.slice(line.indexOf("{"), line.lastIndexOf(" = "))));
    check("a message is no markup", [opened.markup, opened.title], [0, "Multegzi: see a journal"]);
}

/** Each message that the page on formats writes out is read, and one with both accounts. */
async function checkMessages() {
    const formats = fs.readFileSync(path.join(viewer, "..", "docs", "FORMATS.md"), "utf8");
    const written = formats.slice(formats.indexOf("### The written form"), formats.indexOf("### Messages that are sent"));
    const account = (bank, number) => `{"Detail":[{"name":"IFSC","value":"${bank}0000000"},{"name":"ACNUM","value":"${number}"}],"addrType":"ACCOUNT"}`;
    const messages = written.split("\n").filter((line) => line.startsWith("{\"")).concat(
        `{"RespAuthDetails":{"Head":{"msgId":"A2","orgId":"alpha","ts":"2024-01-01T05:30:00+05:30","ver":"2.0"},"Payees":{"Payee":[{"Ac":${account("BBBB", "2")}}]},"Payer":{"Ac":${account("AAAA", "1")},"Amount":{"curr":"INR","value":"30.00"}},"Resp":{"reqMsgId":"M1","result":"SUCCESS"},"Txn":{"id":"T1"}}}`);
    const setup = textOf("one_payment").split("\n").slice(0, 10);
    await paste([...setup, ...messages.map((json, at) => `E ${at + 1} 0 1704067200 HEAR alpha ${json} = NO FULL`)].join("\n"));
    check("each written message is read", [messages.length > 6, (await see("banners")).length], [true, 2]); // no Close, no report
    await goTo("whole");
    check("each is an entry", (await see("cards")).Entries, String(messages.length));
}

/** Journals that are cut, spoiled, or say something else in their report. */
async function checkSpoiled() {
    const good = textOf("one_payment");
    const lines = good.split("\n");
    const spoil = (from, to) => good.replace(from, to);
    const first = async () => (await see("banners"))[0];

    await paste(spoil("DELIVER 3 = POSTED", "DELIVER 3 = POSTDE"));
    check("a spoiled line is named", await see("banners"), [
        "Line 17, word 8 isn’t in the grammar (VALUE): “POSTDE” is no reply. What stands before it is shown. E 4 0 1704067200 DELIVER 3 = POSTDE",
        "The journal has no Close: payments are shown as they stand.",
        "The journal has no report: all sums are those of its entries.",
    ]);
    check("what stands before it is shown", await see("steps"), [
        ...PAYMENTS.one_payment.steps.slice(0, 3), "M 3 SWITCH>AAAA M3 DEBIT 30.00 [○ never delivered]"]);
    check("an open payment is shown as it stands", await see("badges"), ["…open: Debiting"]);

    const words = [
        ["M 5 SWITCH BBBB CREDIT T1 30.00 BBBB/1", "M 5 SWITCH BBBB CREDIT T1 30.00 BBBB", "Line 20, word 8 isn’t in the grammar (VALUE)"],
        ["E 5 0", "E 6 0", "Line 19, word 2 isn’t in the grammar (VALUE)"],
        ["M 1 SWITCH beta REQAUTH", "M 1 SWITCH beta REQAUTHS", "Line 12, word 5 isn’t in the grammar (VALUE)"],
        ["\"addr\":\"bob@beta\"", "\"addr\": \"bob@beta\"", "Line 11, word 7 isn’t in the grammar (VALUE)"],
        ["DELIVER 3 = POSTED", "DELIVER 3", "Line 17 isn’t in the grammar (FIELDS)"],
        ["E 4 0", "F 4 0", "Line 17, word 1 isn’t in the grammar (WORD)"],
        ["ADDR ann@alpha AAAA/1 YES", "ADDR ann@alpha AAAA/9 YES", "Line 8, word 3 isn’t in the grammar (NOACCOUNT)"],
        ["BANK BBBB", "BANK AAAA", "Line 3, word 2 isn’t in the grammar (TWICE)"],
        ["NET,,BBBB,,30.00,", "NET,,BBBB,,30,", "Line 37, word 5 isn’t in the grammar (VALUE)"],
        ["OUTCOME,T1,,SUCCESS,30.00,", "OUTCOME,T1,,SUCCESS,30.00,CAP", "Line 33, word 6 isn’t in the grammar (VALUE)"],
    ];
    for (const [from, to, said] of words) {
        await paste(spoil(from, to));
        check(`spoiled: ${to}`, (await first()).startsWith(`${said}: `), true);
    }

    await paste(spoil("FLIGHT,,,,0.00,", "FLIGHT,,,,1.00,").replace("BALANCE,1,AAAA,,70.00,", "BALANCE,1,AAAA,,69.00,"));
    check("another report is told", await first(),
        "The report and the entries differ in 2 lines. First: BALANCE 1 AAAA: the report says 69.00, the entries come to 70.00. See all");
    await goTo("whole");
    check("where they differ", await see("table", "Where the report and the entries differ"),
        ["BALANCE 1 AAAA | 69.00 | 70.00 | 38", "FLIGHT | 1.00 | 0.00 | 40"]);
    check("both sums stand there", (await see("table", "Balances"))[0], "AAAA/1 | 100.00 | -30.00 | 70.00 | ≠ 69.00 |");

    await paste(good.replace("SETTLE,T1,AAAA,PAID,30.00,\n", "SETTLE,T7,AAAA,PAID,30.00,\n"));
    await goTo("whole");
    check("lines that are missing or too many", await see("table", "Where the report and the entries differ"),
        ["SETTLE T7 AAAA PAID | 30.00 | no such line | 34", "SETTLE T1 AAAA PAID | no such line | 30.00 | –"]);

    await paste(textOf("closed_early").replace("FAILURE,30.00,CLOSED", "FAILURE,30.00,FUNDS"));
    check("another code is told", await first(), "The report and the entries differ in 1 line. First: OUTCOME T1: " +
        "the report says FAILURE FUNDS 30.00, the entries come to FAILURE CLOSED 30.00. See all");

    await paste(lines.slice(0, 30).join("\n"));
    check("no report", await see("banners"), ["The journal has no report: all sums are those of its entries."]);
    await paste(lines.slice(0, 17).join("\n"));
    check("no Close", await see("banners"), [
        "The journal has no Close: payments are shown as they stand.", "The journal has no report: all sums are those of its entries."]);
    await goTo("whole");
    check("sums of what stands", [await see("table", "Settlement and nets"), (await see("cards"))["In flight"]],
        [NO_NETS.map((row) => row.replace(/0\.00$/, "–")), "30.00"]);
    await paste(lines.slice(0, 5).join("\n"));
    check("no OPEN", await first(), "Line 6 isn’t in the grammar (END): the input ends before OPEN. What stands before it is shown.");
    await paste("hello\nworld\n");
    check("no journal", await first(), "Line 1, word 1 isn’t in the grammar (WORD): a journal begins with START. What stands before it is shown. hello");

    await browser.click("#paste");
    await browser.press("Escape");
    check("a paste that is left reads nothing", await browser.run(() => [document.getElementById("paste-box").open,
        document.getElementById("journal").hidden]), [false, false]);

    await paste(good.replace("M 4 AAAA SWITCH ANSWER T1 DEBIT POSTED\n", ""));
    check("a message that is missing", (await see("banners")).slice(0, 2), [
        "Line 18: no line before it is message 4. Sums may not hold.", "Line 19: message 5 stands where 4 comes next. Sums may not hold."]);
    check("a delivery of no message", (await see("steps"))[4], "E 5 05:30:00 DELIVER 4, which no line is = OK : Crediting");
    await paste(good.replace("M 3 SWITCH AAAA DEBIT T1", "M 3 SWITCH AAAA DEBIT T2"));
    check("a message of another payment", await first(), "Line 16: the entry above it isn’t about T2. Sums may not hold.");
    check("it is shown there too", (await see("rows")).map(([id, , , , outcome]) => `${id} ${outcome}`), ["T1 ✓SUCCESS", "T2 –not opened"]);
    await goTo("whole");
    check("each delivery counts once", await browser.run(() => document.querySelectorAll(".card dd.quiet")[1].textContent), "9 deliveries");
    await paste(good.replace("E 11 0", "# FULL 2097152\nE 11 0"));
    await goTo("whole");
    check("calls that found no room", await see("table", "Lines about no payment"), ["30 | # FULL 2097152", "31 | E 11 0 1704067200 CLOSE = CLOSED"]);

    const windows = Buffer.from(good.replaceAll("\n", "\r\n"));
    await drop("windows.txt", windows);
    check("lines that end in CR LF", await see("steps"), PAYMENTS.one_payment.steps);
    const broken = Buffer.from(good);
    broken[good.indexOf("REQAUTH")] = 0xff;
    await drop("broken.txt", broken);
    check("bytes that are no UTF-8", (await first()).startsWith("Line 12 isn’t in the grammar (UTF8): the line isn’t UTF-8."), true);
    await drop("endless.txt", Buffer.alloc(200_000, "x"));
    check("a line without an end", (await first()).startsWith("Line 1 isn’t in the grammar (LIMIT): the line is too long."), true);
}

/** Everything can be reached by keys, and what has the focus can be seen. */
async function checkKeys() {
    await fresh();
    const focus = () => browser.run(() => {
        const at = document.activeElement;
        return [at.id || at.textContent.trim().slice(0, 20), getComputedStyle(at).outlineStyle !== "none"];
    });
    const reached = [];
    for (let press = 0; press < 9; press += 1) {
        await browser.press("Tab");
        reached.push(await focus());
    }
    check("tab goes over the page", reached, [
        ["pick", true], ["paste", true], ["example", true], ["one_payment", true], ["payment_repeated", true], ["credit_deemed", true],
        ["debit_reversed", true], ["collect_approved", true], ["collect_too_late", true]]);
    await drop("everything.journal", Buffer.from(textOf("everything")));
    for (const key of ["ArrowDown", "ArrowDown", "ArrowUp", "End", "ArrowUp", "Enter"]) await browser.press(key);
    await browser.until(() => location.hash === "#payment=C1");
    check("the first step has the focus", (await focus())[0].startsWith("E 36"), true);
    await browser.press("ArrowDown");
    await browser.press("Enter");
    check("a step opens", await browser.run(() => {
        const at = document.activeElement;
        return [at.querySelector("b").textContent, at.getAttribute("aria-expanded"), getComputedStyle(at).outlineStyle !== "none",
            document.getElementById(at.getAttribute("aria-controls")).innerText.includes("E 42 0 1704067200 CLOSE = CLOSED")];
    }), ["E 42", "true", true, true]);
    check("a step says itself", await browser.run(() => document.querySelector(".step-head").getAttribute("aria-label")),
        "Entry 36, 2024-01-01 05:30:00: ReqPay COLLECT 4.00, beta to SWITCH, = OK; sends M30 REQAUTH to alpha. Then: Asking");
    await browser.press("Escape");
    await browser.until(() => location.hash === "#payments");
    check("back at the row", await browser.run(() => [document.activeElement.getAttribute("role"),
        document.getElementById(document.activeElement.getAttribute("aria-activedescendant")).firstChild.textContent]), ["grid", "C1"]);
}

/** No text is faint, in either of the machine's colours, nor on paper; and pictures of it all. */
async function checkLooks() {
    const faint = async (what) => check(`contrast: ${what}`, await see("faint"), { enough: true, faint: [] });
    for (const dark of [false, true]) {
        const name = dark ? "dark" : "light";
        await browser.look({ dark });
        await fresh();
        await faint(`${name}, welcome`);
        await browser.picture(path.join(out, `${name}-welcome.png`));
        await browser.click("#examples button", "credit_deemed");
        await loaded("credit_deemed");
        await browser.look({ dark, height: 1180 });
        await browser.picture(path.join(out, `${name}-payment.png`));
        await browser.click("button", "Open all steps");
        await faint(`${name}, payment`);
        await browser.picture(path.join(out, `${name}-steps.png`));
        await goTo("whole");
        await faint(`${name}, the whole`);
        await browser.picture(path.join(out, `${name}-whole.png`));
        await drop("everything.journal", Buffer.from(textOf("everything")));
        await faint(`${name}, payments`);
        await paste(textOf("one_payment").replace("FLIGHT,,,,0.00", "FLIGHT,,,,1.00").replace("M 4 AAAA SWITCH ANSWER T1 DEBIT POSTED\n", ""));
        await faint(`${name}, banners`);
        await browser.picture(path.join(out, `${name}-banners.png`));
    }
    await browser.look({ height: 800 });
    await drop("load.journal", Buffer.from(large(1000)));
    await browser.run(() => document.activeElement.blur());
    await browser.picture(path.join(out, "light-payments.png"));
    await browser.run(() => dispatchEvent(new Event("beforeprint")));
    check("what is printed has all rows in their order", await browser.run(() =>
        [...document.querySelectorAll(".canvas .grid-row")].every((row, at) => row.firstChild.textContent === `L${String(at + 1).padStart(6, "0")}`)
            && document.querySelectorAll(".canvas .grid-row").length), 1000);
    await browser.run(() => dispatchEvent(new Event("afterprint")));
    check("and then those in sight", await browser.run(() => document.querySelectorAll(".canvas .grid-row").length < 100), true);
    await browser.look({ width: 640, height: 1200 });
    await browser.click(".canvas .grid-row", "L000003");
    await browser.until(() => location.hash === "#payment=L000003");
    check("nothing of the page is out of reach in a narrow window", await browser.run(() => document.documentElement.scrollWidth), 640);
    await browser.picture(path.join(out, "narrow.png"));
    await browser.look({ dark: true });
    await drop("credit_deemed", Buffer.from(textOf("credit_deemed")));
    await browser.call("Page.printToPDF");
    check("what is printed has all steps open", await browser.run(() =>
        [...document.querySelectorAll(".step-body")].map((body) => body.hidden)), Array(12).fill(false));
    await browser.look({ print: true, dark: true, width: 1040, height: 1400 });
    await faint("paper");
    check("paper has no buttons", await browser.run(() => getComputedStyle(document.getElementById("tools")).display), "none");
    await browser.picture(path.join(out, "paper.png"));
    await browser.look();
}

/** A journal of a load of 50,000 payments: read in time, and scrolled without delay. */
async function checkLarge() {
    const file = path.join(out, "large.journal");
    fs.writeFileSync(file, large(50_000));
    await fresh();
    await browser.call("Performance.enable", { timeDomain: "threadTicks" });
    const busy = async () => (await browser.call("Performance.getMetrics")).metrics.find(({ name }) => name === "TaskDuration").value;
    const before = await busy();
    const began = Date.now();
    await browser.choose("#file", file);
    await browser.until(() => document.getElementById("progress").value > 0.2);
    check("a bar tells how far it is", await browser.run(() => [document.getElementById("reading").hidden,
        /^\d+\.\d MB of 60\.9 MB, [\d,]+ lines$/.test(document.getElementById("reading-far").textContent)]), [false, true]);
    await loaded("large.journal");
    const seconds = (await busy()) - before;
    console.log(`viewer: 60.9 MB, 50,000 payments: ${((Date.now() - began) / 1000).toFixed(1)} s, of them ${seconds.toFixed(1)} s of processor time`);
    check("read in 10 seconds", seconds < 10 || seconds, true); // of processor time: other work on the machine doesn't count
    check("large: banner", await see("banners"), ["✓ The report’s 145,045 lines are what the entries come to."]);
    await browser.picture(path.join(out, "large-payments.png"));

    // The rows of each place stand there one frame after it was scrolled to, and take little to draw.
    const places = Math.ceil(50_000 / 997);
    const idle = await busy();
    const scrolled = await browser.run(async () => {
        const grid = document.querySelector(".grid");
        const frame = () => new Promise((go) => requestAnimationFrame(go));
        let right = true;
        for (let place = 0; place < 50_000; place += 997) {
            grid.scrollTop = place * 34;
            grid.dispatchEvent(new Event("scroll"));
            await frame();
            await frame();
            right &&= [...document.querySelectorAll(".canvas .grid-row")].some((row) =>
                row.firstChild.textContent === `L${String(Math.min(place + 1, 49_990)).padStart(6, "0")}`);
        }
        return { right, rows: document.querySelectorAll(".canvas .grid-row").length };
    });
    const each = ((await busy()) - idle) / places * 1000;
    console.log(`viewer: a scroll to another place of its table: ${each.toFixed(0)} ms of processor time`);
    check("large: the rows of each place are there", [scrolled.right, scrolled.rows < 120], [true, true]);
    check("large: scrolling has no delay", each < 100 || each, true);

    await browser.run(() => { document.querySelector(".grid").scrollTop = 30_000 * 34; });
    await browser.until(() => document.getElementById("payment-row-30001") !== null);
    await browser.click("#payment-row-30001");
    await browser.until(() => document.querySelector("#payment h3")?.textContent === "L030002");
    await browser.press("Escape");
    await browser.until(() => location.hash === "#payments" && document.getElementById("payment-row-30001") !== null);
    check("large: back where it was", await browser.run(() => document.querySelector(".grid").scrollTop), 30_000 * 34);
    await goTo("whole");
    const cards = await see("cards");
    check("large: cards", [cards["Payments opened"], cards.Lost, cards.Late, cards.Items, cards["In flight"]], ["50,000", "10,000", "10,000", "5,000", "50000.00"]);
    check("large: outcomes", await see("table", "Outcomes"), [
        "✓ SUCCESS | 35,000 | 350000.00 | 70.0 %", "≈ DEEMED | 10,000 | 100000.00 | 20.0 %", "✕ FAILURE DECLINED | 5,000 | 50000.00 | 10.0 %"]);
    // A payer's bank goes by j mod 4; of each 20 payments one with j mod 4 = 1 and one with 3 is declined.
    check("large: nets", await see("table", "Settlement and nets"), [
        "AAAA | 12,500 | 125000.00 | 10,000 | 100000.00 | -25000.00 | -25000.00",
        "BBBB | 10,000 | 100000.00 | 12,500 | 125000.00 | 25000.00 | 25000.00",
        "CCCC | 12,500 | 125000.00 | 10,000 | 100000.00 | -25000.00 | -25000.00",
        "DDDD | 10,000 | 100000.00 | 12,500 | 125000.00 | 25000.00 | 25000.00"]);
    await browser.picture(path.join(out, "large-whole.png"));
    await checkFilters();
    await checkStop(file);
    fs.rmSync(file);
}

/** A reading that is stopped shows what was read. */
async function checkStop(file) {
    await browser.choose("#file", file);
    await browser.until(() => document.getElementById("progress").value > 0.1 && !document.getElementById("reading").hidden);
    await browser.click("#stop");
    await loaded("large.journal");
    check("stopped", await see("banners"), ["The reading was stopped. What stands before that is shown.",
        "The journal has no Close: payments are shown as they stand.", "The journal has no report: all sums are those of its entries."]);
    check("stopped: what was read is shown", (await see("rows"))[0], ["L000001", "PAY", "u2@beta → u3@gamma", "10.00", "✓SUCCESS", "2024-01-01 05:30:00", "1 repeated"]);
}

/** Search and filters, over the large journal. */
async function checkFilters() {
    await goTo("payments");
    const filter = (fields) => browser.run((fields) => {
        const labels = [...document.querySelectorAll(".filters label")];
        for (const [name, value] of Object.entries(fields)) {
            const input = labels.find((label) => label.textContent.startsWith(name)).querySelector("input, select");
            if (input.type === "checkbox") input.checked = value;
            else input.value = value;
            input.dispatchEvent(new Event(input.matches("select, [type=checkbox]") ? "change" : "input"));
        }
        return [document.querySelector("#payments .quiet").textContent, document.querySelector(".canvas .grid-row")?.firstChild.textContent ?? ""];
    }, fields);
    const none = { Search: "", Outcome: "", Bank: "", PSP: "", only: false };
    check("search", await filter({ ...none, Search: "L012345" }), ["1 of 50,000 payments", "L012345"]);
    check("search for an address", await filter({ ...none, Search: "U1@alpha" }), ["2,500 of 50,000 payments", "L000039"]);
    check("filter by outcome", await filter({ ...none, Outcome: "DEEMED" }), ["10,000 of 50,000 payments", "L000003"]);
    check("filter by code", await filter({ ...none, Outcome: "FAILURE DECLINED" }), ["5,000 of 50,000 payments", "L000009"]);
    check("filter by bank", await filter({ ...none, Bank: "AAAA" }), ["25,000 of 50,000 payments", "L000003"]);
    check("filter by PSP and bank", await filter({ ...none, Bank: "AAAA", PSP: "beta" }), ["12,500 of 50,000 payments", "L000004"]);
    check("filter by items", await filter({ ...none, only: true }), ["5,000 of 50,000 payments", "L000003"]);
    check("nothing found", await filter({ ...none, Search: "nobody" }), ["0 of 50,000 payments", ""]);
}

/** Nothing was asked for but files of the viewer, and nothing went wrong unseen. */
function checkSilence() {
    const root = pathToFileURL(`${path.resolve(viewer)}/`).href;
    const asked = browser.events.filter(({ method }) => method === "Network.requestWillBeSent").map(({ params }) => params.request.url);
    check("nothing leaves the machine", [asked.length > 0, asked.filter((url) => !url.startsWith(root) && !url.startsWith("data:") && !url.startsWith("blob:"))], [true, []]);
    const wrong = browser.events.filter(({ method }) => method === "Runtime.exceptionThrown" || method === "Log.entryAdded");
    check("nothing went wrong unseen", wrong.map(({ params }) => params.exceptionDetails?.exception?.description ?? params.entry.text), []);
}

async function main() {
    fs.rmSync(out, { recursive: true, force: true });
    fs.mkdirSync(out);
    await browser.open(pathToFileURL(path.join(viewer, "index.html")).href);
    await browser.look();
    for (const part of [checkExamples, checkEverything, checkMessages, checkSpoiled, checkKeys, checkLooks, checkLarge]) await part();
    checkSilence();
    if (keep === "keep") {
        for (const name of ["payment", "payments"]) {
            fs.copyFileSync(path.join(out, `light-${name}.png`), path.join(viewer, "pictures", `${name}.png`));
        }
    }
}

main().catch((error) => {
    count.failed += 1;
    console.log(`FAILED ${error.stack}`);
}).finally(async () => {
    await browser.close();
    console.log(`viewer: ${count.passed} passed, ${count.failed} failed`);
    process.exit(count.failed === 0 ? 0 : 1);
});
