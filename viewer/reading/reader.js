// Reads a journal with its report, in pieces of bytes, into lines that say what they are.
// It knows the grammar of docs/FORMATS.md and nothing of the page, and doesn't say what lines mean
// together. The first line outside the grammar ends the reading: it is told with its number, the word
// and the reason.
"use strict";

Viewer.reader = (() => {
    const G = Viewer.grammar;

    /** Bytes that a line has at most before its LF. */
    const MAX_LINE = 65_536;
    const LIMITS = { BANK: 64, PSP: 64, ACCOUNT: 65_536, ADDR: 65_536 };
    const HEADER = "row,id,bank,detail,amount,code";

    /** Why a line is outside the grammar. `word` counts from 1; 0 is the whole line. */
    class Fault extends Error {
        /**
         * @param {number} word
         * @param {string} why    the grammar's reason, as VALUE
         * @param {string} said   the reason in words
         */
        constructor(word, why, said) {
            super(said);
            Object.assign(this, { word, why, said, line: 0, text: "" });
        }
    }

    function value(word, said) {
        return new Fault(word, "VALUE", said);
    }

    /** Refuses a line that hasn't one of these numbers of words. */
    function count(words, ...counts) {
        if (!counts.includes(words.length)) {
            throw new Fault(0, "FIELDS", `${words[0]} doesn’t have ${words.length} words`);
        }
    }

    /** The word at a place counted from 1, where the rule allows it. */
    function word(words, place, rule, what) {
        if (!rule(words[place - 1])) throw value(place, `“${words[place - 1]}” is no ${what}`);
        return words[place - 1];
    }

    /** The word at a place counted from 1, as the value that the reader makes of it. */
    function read(words, place, reader, what) {
        const got = reader(words[place - 1]);
        if (got === null) throw value(place, `“${words[place - 1]}” is no ${what}`);
        return got;
    }

    /** A reply: its text, its first word, the code of a refusal, and the outcome that a STATUS tells. */
    class Reply {
        constructor(text, code, outcome) {
            this.text = text;
            this.word = text.split(" ", 1)[0];
            this.code = code;
            this.outcome = outcome;
        }
    }

    /** Each reply text that was read, as its one Reply, or null where it is none. */
    const replies = new Map();

    function readReply(text) {
        let reply = replies.get(text);
        if (reply === undefined && text.length < 40) {
            reply = makeReply(text);
            replies.set(text, reply);
        }
        return reply ?? null;
    }

    function makeReply(text) {
        const words = text.split(" ");
        if (/^(?:OK|POSTED|TOLD|LOST|DONE|NOTDUE|CLOSED)$/.test(text)) return new Reply(text, "", null);
        if (words[0] === "NO" || words[0] === "DECLINED") {
            return words.length === 2 && G.CODES.has(words[1]) ? new Reply(text, words[1], null) : null;
        }
        if (words[0] !== "STATUS") return null;
        if (text === "STATUS PENDING") return new Reply(text, "", { word: "PENDING", code: "" });
        const outcome = G.readOutcome(words.slice(1));
        return outcome && new Reply(text, outcome.code, outcome);
    }

    /** Words and names that many lines have, each kept once. */
    const names = new Map();

    function once(text) {
        const kept = names.get(text);
        if (kept !== undefined) return kept;
        names.set(text, text);
        return text;
    }

    /** The list of an entry that sent nothing. */
    const NOTHING = Object.freeze([]);

    /**
     * An E line. Of the members after `call` those are set that the call has.
     * `sent`, `message`, `again` and `echo` are for whoever puts the lines together.
     */
    class Entry {
        constructor(line, text, place, caller, at, call) {
            this.line = line;
            this.text = text;
            this.place = place;
            this.caller = caller;
            /** Seconds after 1970-01-01T00:00:00Z. */
            this.at = at;
            /** HEAR, BAD, DELIVER, LOSE, LATE or CLOSE. */
            this.call = call;
            this.psp = "";
            /** @type {?Heard} */
            this.heard = null;
            /** @type {?{path: string, why: string}} */
            this.bad = null;
            this.number = 0;
            this.id = "";
            /** @type {?Reply} */
            this.reply = null;
            this.sent = NOTHING;
            /** @type {?Message} */
            this.message = null;
            this.again = 0;
            this.echo = false;
        }

        get type() {
            return "ENTRY";
        }

        /** The name of the transaction that the call is about, or the empty text. */
        get about() {
            return this.id || (this.message?.id ?? "");
        }
    }

    /** The text of a HEAR line's message. */
    function jsonOf(entry) {
        const start = entry.text.indexOf("{");
        return entry.text.slice(start, entry.text.lastIndexOf(" = "));
    }

    function readSeconds(text) {
        const number = G.readNumber(text);
        return number !== null && number <= G.MAX_MOMENT ? number : null;
    }

    function readEntry(line, text, place) {
        const mark = text.lastIndexOf(" = ");
        if (mark < 0) throw new Fault(0, "FIELDS", "an E line has “ = ” before its reply");
        const words = text.slice(0, mark).split(" ");
        if (words.length < 5) throw new Fault(0, "FIELDS", `E doesn’t have ${words.length} words before “=”`);
        if (read(words, 2, G.readNumber, "number") !== place) {
            throw value(2, `the entry’s place is ${words[1]} and not ${place}`);
        }
        const caller = read(words, 3, G.readNumber, "number");
        const at = read(words, 4, readSeconds, "moment in seconds");
        const entry = new Entry(line, text, place, caller, at, once(words[4]));
        const replyAt = readCall(entry, words);
        entry.reply = readReply(text.slice(mark + 3));
        if (!entry.reply) throw value(replyAt, `“${text.slice(mark + 3)}” is no reply`);
        return entry;
    }

    /** Reads an entry's call; answers the place of the reply's first word. */
    function readCall(entry, words) {
        switch (entry.call) {
            case "HEAR":
                if (words.length < 7) throw new Fault(0, "FIELDS", "HEAR has a PSP and a message");
                entry.psp = once(word(words, 6, G.isPspName, "name of a PSP"));
                entry.heard = Viewer.messages.read(words.slice(6).join(" "));
                if (!entry.heard) throw value(7, "the message isn’t in its written form");
                entry.id = entry.heard.id;
                return 9;
            case "BAD":
                count(words, 8);
                entry.psp = once(word(words, 6, G.isPspName, "name of a PSP"));
                entry.bad = {
                    path: word(words, 7, G.isPath, "path"),
                    why: word(words, 8, (text) => G.FAULTS.has(text), "fault of a message"),
                };
                return 10;
            case "DELIVER":
            case "LOSE":
                count(words, 6);
                entry.number = read(words, 6, G.readNumber, "number");
                return 8;
            case "LATE":
                count(words, 6);
                entry.id = word(words, 6, G.isTxnId, "name of a transaction");
                return 8;
            case "CLOSE":
                count(words, 5);
                return 7;
            default:
                throw value(5, `“${entry.call}” is no call`);
        }
    }

    /** An M line. `deliveries` and `losses` are for whoever puts the lines together. */
    class Message {
        constructor(line, text, number, from, to, body, id) {
            this.line = line;
            this.text = text;
            this.number = number;
            this.from = from;
            this.to = to;
            /** REQAUTH, RESPAUTH, DEBIT, CREDIT, REVERSAL, ANSWER, RESPPAY, CONFIRM or CONFIRMED. */
            this.body = body;
            this.id = id;
            /** Paise. */
            this.amount = 0;
            this.account = "";
            /** YES or NO of a RESPAUTH; POSTED or DECLINED of an ANSWER. */
            this.said = "";
            this.leg = "";
            /** The code of an ANSWER that declines. */
            this.code = "";
            /** @type {?{word: string, code: string}} */
            this.outcome = null;
            this.deliveries = 0;
            this.losses = 0;
        }

        get type() {
            return "MESSAGE";
        }
    }

    const isParty = (text) => text === "SWITCH" || G.isPspName(text) || G.isBankCode(text);

    function readMessage(line, text) {
        const words = text.split(" ");
        if (words.length < 6) throw new Fault(0, "FIELDS", `M doesn’t have ${words.length} words`);
        const number = read(words, 2, G.readNumber, "number");
        const from = once(word(words, 3, isParty, "party"));
        const to = once(word(words, 4, isParty, "party"));
        const readBody = BODIES[words[4]];
        if (!readBody) throw value(5, `“${words[4]}” is no message`);
        const message = new Message(line, text, number, from, to, once(words[4]), "");
        readBody(message, words);
        return message;
    }

    function readId(message, words) {
        message.id = word(words, 6, G.isTxnId, "name of a transaction");
    }

    function readAsked(message, words) {
        count(words, message.body === "REQAUTH" ? 7 : 8);
        readId(message, words);
        message.amount = read(words, 7, G.readPaise, "sum of money");
        if (message.body === "RESPAUTH") {
            message.said = word(words, 8, (text) => text === "YES" || text === "NO", "YES or NO");
        }
    }

    function readOrder(message, words) {
        count(words, 8);
        readId(message, words);
        message.leg = message.body;
        message.amount = read(words, 7, G.readPaise, "sum of money");
        message.account = once(word(words, 8, G.isAccount, "account"));
    }

    function readAnswer(message, words) {
        count(words, 8, 9);
        readId(message, words);
        message.leg = once(word(words, 7, (text) => G.LEGS.has(text), "leg"));
        message.said = once(word(words, 8, (text) => text === (words.length === 8 ? "POSTED" : "DECLINED"),
            "answer of a bank"));
        if (words.length === 9) message.code = once(word(words, 9, (text) => G.CODES.has(text), "code"));
    }

    function readTold(message, words) {
        count(words, 7, 8);
        readId(message, words);
        message.outcome = G.readOutcome(words.slice(6));
        if (!message.outcome) throw value(7, `“${words.slice(6).join(" ")}” is no outcome`);
    }

    function readConfirmed(message, words) {
        count(words, 6);
        readId(message, words);
    }

    const BODIES = {
        __proto__: null,
        REQAUTH: readAsked, RESPAUTH: readAsked, DEBIT: readOrder, CREDIT: readOrder,
        REVERSAL: readOrder, ANSWER: readAnswer, RESPPAY: readTold, CONFIRM: readTold,
        CONFIRMED: readConfirmed,
    };

    /** Reads setup lines; each is judged by those before it. */
    class SetupReader {
        #given = { BANK: new Set(), PSP: new Set(), ACCOUNT: new Set(), ADDR: new Set() };

        read(line, text) {
            const words = text.split(" ");
            switch (words[0]) {
                case "BANK": return this.#name(line, text, words, G.isBankCode, "code of a bank");
                case "PSP": return this.#name(line, text, words, G.isPspName, "name of a PSP");
                case "ACCOUNT": return this.#account(line, text, words);
                case "ADDR": return this.#address(line, text, words);
                case "OPEN":
                    count(words, 1);
                    return { type: "OPEN", line, text };
                default:
                    throw new Fault(1, "WORD", `“${words[0]}” begins no line of a setup`);
            }
        }

        /** Takes a name that is new and has room. */
        #take(kind, name, rules) {
            for (const [holds, at, why, said] of rules) if (!holds) throw new Fault(at, why, said);
            if (this.#given[kind].size >= LIMITS[kind]) throw new Fault(1, "LIMIT", `there are too many ${kind} lines`);
            this.#given[kind].add(name);
        }

        #isNew(kind, name) {
            return [!this.#given[kind].has(name), 2, "TWICE", `“${name}” was given before`];
        }

        #name(line, text, words, rule, what) {
            count(words, 2);
            const type = words[0];
            const name = word(words, 2, rule, what);
            this.#take(type, name, [this.#isNew(type, name)]);
            return { type, line, text, name };
        }

        #account(line, text, words) {
            count(words, 3, 4, 5);
            const account = word(words, 2, G.isAccount, "account");
            const opening = read(words, 3, G.readPaise, "sum of money");
            if (words.length > 3) {
                word(words, 4, (flag) => flag === "NODEBIT" || (flag === "NOCREDIT" && words.length === 4), "flag here");
            }
            if (words.length > 4) word(words, 5, (flag) => flag === "NOCREDIT", "flag here");
            const [bank, number] = account.split("/");
            const known = [this.#given.BANK.has(bank), 2, "NOBANK", `the bank ${bank} wasn’t given`];
            this.#take("ACCOUNT", account, [known, this.#isNew("ACCOUNT", account)]);
            return {
                type: "ACCOUNT", line, text, account, bank, number, opening,
                noDebit: words.includes("NODEBIT"), noCredit: words.includes("NOCREDIT"),
            };
        }

        #address(line, text, words) {
            count(words, 4);
            const address = word(words, 2, G.isAddress, "address");
            const account = word(words, 3, G.isAccount, "account");
            const policy = word(words, 4, G.isPolicy, "policy");
            const psp = address.split("@")[1];
            this.#take("ADDR", address, [
                this.#isNew("ADDR", address),
                [this.#given.PSP.has(psp), 2, "NOPSP", `the PSP ${psp} wasn’t given`],
                [this.#given.ACCOUNT.has(account), 3, "NOACCOUNT", `the account ${account} wasn’t given`],
            ]);
            return { type: "ADDR", line, text, address, account, policy, psp };
        }
    }

    const blank = (text) => text === "";
    const name = (text) => G.isTxnId(text);

    /** The grammar of each kind of report line: what may stand in its fields after the first. */
    const ROWS = {
        __proto__: null,
        OUTCOME: [name, blank, (text) => /^(?:SUCCESS|FAILURE|DEEMED)$/.test(text), G.readSum, null],
        SETTLE: [name, G.isBankCode, (text) => text === "PAID" || text === "RECEIVED", G.readSum, blank],
        NET: [blank, G.isBankCode, blank, G.readSum, blank],
        RECON: [name, G.isBankCode, blank, G.readSum, blank],
        BALANCE: [G.isAccountNumber, G.isBankCode, blank, G.readSum, blank],
        FLIGHT: [blank, blank, blank, G.readSum, blank],
    };

    function readReportLine(line, text) {
        const fields = text.split(",");
        const rules = ROWS[fields[0]];
        if (!rules) throw new Fault(1, "WORD", `“${fields[0]}” begins no line of a report`);
        if (fields.length !== 6) throw new Fault(0, "FIELDS", `a report line has six fields and not ${fields.length}`);
        const [row, id, bank, detail, amount, code] = fields;
        const isCode = row === "OUTCOME" && detail === "FAILURE" ? (text) => G.CODES.has(text) : blank;
        [rules[0], rules[1], rules[2], (text) => rules[3](text) !== null, rules[4] ?? isCode]
            .forEach((rule, at) => {
                if (!rule(fields[at + 1])) throw value(at + 2, `“${fields[at + 1]}” can’t stand there in ${row}`);
            });
        return { type: "REPORT_LINE", line, text, row, id, bank, detail, amount: G.readSum(amount), code };
    }

    /** A `#` line: a call that was refused without an entry (NOMSG, FULL), or a remark. */
    function readSkipped(line, text) {
        const refused = /^# (?:NOMSG [0-9]+ [0-9]+|FULL [0-9]+)$/.test(text);
        return { type: refused ? "REFUSED" : "REMARK", line, text };
    }

    /**
     * Reads a journal from pieces of bytes, and hands on what each line is.
     * After a fault it takes no more.
     */
    class JournalReader {
        #take;
        #setup = new SetupReader();
        #part = "START";
        #rest = new Uint8Array(0);
        #strict = new TextDecoder("utf-8", { fatal: true, ignoreBOM: true });
        #loose = new TextDecoder("utf-8", { ignoreBOM: true });
        #places = 0;

        /** @param {(item: {type: string, line: number, text: string}) => void} take */
        constructor(take) {
            this.#take = take;
            /** Lines that were read. */
            this.lines = 0;
            /** @type {?Fault} */
            this.fault = null;
        }

        /** Reads all whole lines of the bytes that came before and these. */
        feed(bytes) {
            const end = bytes.lastIndexOf(10);
            if (this.fault) return;
            if (end < 0) {
                this.#rest = join(this.#rest, bytes);
                if (this.#rest.length > MAX_LINE) this.#line(this.#loose.decode(this.#rest));
                return;
            }
            this.#block(join(this.#rest, bytes.subarray(0, end)));
            this.#rest = bytes.slice(end + 1);
        }

        /** Ends the input: bytes after the last LF are a line too. */
        end() {
            if (this.#rest.length > 0 && !this.fault) this.#bytes(this.#rest, false);
            if (!this.fault && (this.#part === "START" || this.#part === "SETUP")) {
                this.lines += 1;
                this.#refuse(new Fault(0, "END", "the input ends before OPEN"), "");
            }
        }

        /** Reads lines that lie whole in the bytes, each but the last with its LF. */
        #block(bytes) {
            let text;
            try {
                text = this.#strict.decode(bytes);
            } catch {
                return this.#oneByOne(bytes);
            }
            for (const line of text.split("\n")) {
                if (this.fault) return;
                this.#line(line.endsWith("\r") ? line.slice(0, -1) : line);
            }
        }

        /** The same, where some line isn't UTF-8. */
        #oneByOne(bytes) {
            for (let from = 0; from <= bytes.length && !this.fault;) {
                const at = bytes.indexOf(10, from);
                const to = at < 0 ? bytes.length : at;
                this.#bytes(bytes.subarray(from, to), true);
                from = to + 1;
            }
        }

        /** Reads a line of bytes, which may be no UTF-8. */
        #bytes(bytes, ended) {
            const line = ended && bytes.at(-1) === 13 ? bytes.subarray(0, -1) : bytes;
            let text;
            try {
                text = this.#strict.decode(line);
            } catch {
                text = this.#loose.decode(line);
                if (!this.#isSkipped(text)) {
                    this.lines += 1;
                    return this.#refuse(new Fault(0, "UTF8", "the line isn’t UTF-8"), text);
                }
            }
            this.#line(text);
        }

        #isSkipped(text) {
            return (text === "" || text[0] === "#") && this.#part !== "HEADER" && this.#part !== "REPORT";
        }

        #line(text) {
            this.lines += 1;
            try {
                if (text.length > MAX_LINE / 3 && new TextEncoder().encode(text).length > MAX_LINE) {
                    throw new Fault(0, "LIMIT", "the line is too long");
                }
                if (!this.#isSkipped(text)) this.#take(this.#read(text));
                else if (text !== "") this.#take(readSkipped(this.lines, text));
            } catch (fault) {
                if (!(fault instanceof Fault)) throw fault;
                this.#refuse(fault, text);
            }
        }

        #refuse(fault, text) {
            this.fault = Object.assign(fault, { line: this.lines, text });
        }

        #read(text) {
            switch (this.#part) {
                case "START": return this.#start(text);
                case "SETUP": {
                    const item = this.#setup.read(this.lines, text);
                    if (item.type === "OPEN") this.#part = "HISTORY";
                    return item;
                }
                case "HISTORY": return this.#history(text);
                case "HEADER":
                    if (text !== HEADER) throw new Fault(0, "VALUE", `a report begins with ${HEADER}`);
                    this.#part = "REPORT";
                    return { type: "REPORT_HEADER", line: this.lines, text };
                default: return readReportLine(this.lines, text);
            }
        }

        #start(text) {
            const words = text.split(" ");
            if (words[0] !== "START") throw new Fault(1, "WORD", "a journal begins with START");
            count(words, 2);
            const start = read(words, 2, G.readMoment, "moment");
            this.#part = "SETUP";
            return { type: "START", line: this.lines, text, start };
        }

        #history(text) {
            if (text.startsWith("E ")) {
                const entry = readEntry(this.lines, text, this.#places + 1);
                this.#places += 1;
                return entry;
            }
            if (text.startsWith("M ") && this.#places > 0) return readMessage(this.lines, text);
            if (text === "REPORT") {
                this.#part = "HEADER";
                return { type: "REPORT", line: this.lines, text };
            }
            throw new Fault(1, "WORD", `“${text.split(" ", 1)[0].slice(0, 40)}” begins no line here`);
        }
    }

    function join(one, other) {
        if (one.length === 0) return other;
        const both = new Uint8Array(one.length + other.length);
        both.set(one);
        both.set(other, one.length);
        return both;
    }

    return { JournalReader, Fault, jsonOf };
})();
