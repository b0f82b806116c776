// Puts the lines of a journal together: payments with their entries, messages with their deliveries,
// balances, and money in flight along the history. It goes by what the lines say and judges nothing.
// Where lines don't fit together, so that the sums may not hold, it leaves a remark.
// Knows nothing of the page.
"use strict";

Viewer.journal = (() => {
    const { Standing } = Viewer.standing;

    /** A name of a transaction that some line speaks of, whether it was opened or not. */
    class Payment {
        constructor(id) {
            this.id = id;
            this.standing = new Standing();
            /** Its entries, in the order of the history. */
            this.entries = [];
            /** The first ReqPay heard of it. */
            this.asked = null;
            /** The last ReqPay of it that was refused. */
            this.refusal = null;
            /** How many of its entries are of a kind. */
            this.lost = 0;
            this.repeated = 0;
            this.late = 0;
            this.refused = 0;
            /** The report's lines on it. */
            this.report = [];
            this.payerAccount = "";
            this.payeeAccount = "";
        }

        get opened() {
            return this.standing.opening !== null;
        }

        /** What its ReqPay said: that which opened it, else the first. */
        get request() {
            return (this.standing.opening ?? this.asked)?.heard ?? null;
        }

        get payerBank() {
            return this.payerAccount.slice(0, 4);
        }

        get payeeBank() {
            return this.payeeAccount.slice(0, 4);
        }

        get payerPsp() {
            return this.request ? this.request.payer.split("@")[1] : "";
        }

        get payeePsp() {
            return this.request ? this.request.payee.split("@")[1] : "";
        }

        /** Whether SUCCESS or DEEMED is its outcome. */
        get settled() {
            const word = this.standing.outcome?.word;
            return word === "SUCCESS" || word === "DEEMED";
        }

        /** Whether it is an item of reconciliation: DEEMED, and its credit didn't move. */
        get isItem() {
            return this.standing.outcome?.word === "DEEMED" && !this.standing.moved.CREDIT;
        }
    }

    /** Whether a reply refuses. */
    const isRefusal = (reply) => reply.word === "NO" || reply.word === "DECLINED";

    class Journal {
        #last = null;

        constructor() {
            this.start = null;
            this.banks = [];
            this.psps = [];
            /** Accounts by their text, with `balance` in paise, a BigInt. */
            this.accounts = new Map();
            this.addresses = new Map();
            this.isOpen = false;
            this.entries = [];
            /** All messages, in the order of their lines; message n is the n-th where all is in order. */
            this.messages = [];
            /** Messages that stand out of order, by their numbers. */
            this.strays = new Map();
            /** Payments by their names, in the order in which they were first named. */
            this.payments = new Map();
            /** Opened payments, in opening order. */
            this.opened = [];
            /** Entries that are about no payment. */
            this.apart = [];
            /** `#` lines of calls that were refused without an entry. */
            this.unheard = [];
            /** The entry that closed the switch. */
            this.closed = null;
            this.hasReport = false;
            this.report = [];
            /** What doesn't fit together: `{line, said}`. */
            this.remarks = [];
            /** Paise in flight now, and at each entry that changed it. */
            this.flight = 0n;
            this.flights = [{ place: 0, amount: 0n }];
            this.counts = { lost: 0, repeated: 0, late: 0, refused: 0, delivered: 0 };
        }

        /** Takes a line, as the reader hands it on. */
        take(item) {
            switch (item.type) {
                case "ENTRY": this.#entry(item); break;
                case "MESSAGE": this.#message(item); break;
                case "REPORT_LINE": this.report.push(item); break;
                case "START": this.start = item.start; break;
                case "BANK": this.banks.push(item.name); break;
                case "PSP": this.psps.push(item.name); break;
                case "ACCOUNT": this.accounts.set(item.account, { ...item, balance: BigInt(item.opening) }); break;
                case "ADDR": this.addresses.set(item.address, item); break;
                case "OPEN": this.isOpen = true; break;
                case "REFUSED": this.unheard.push(item); break;
                case "REPORT_HEADER": this.hasReport = true; break;
            }
        }

        /** Ends the journal: no line comes any more. */
        finish() {
            this.#flush();
        }

        /** The message of a number, or null. */
        messageOf(number) {
            const message = this.messages[number - 1];
            return message?.number === number ? message : this.strays.get(number) ?? null;
        }

        #remark(line, said) {
            this.remarks.push({ line, said });
        }

        #entry(entry) {
            this.#flush();
            this.#last = entry;
            this.entries.push(entry);
            if (entry.call !== "DELIVER" && entry.call !== "LOSE") return;
            entry.message = this.messageOf(entry.number);
            if (!entry.message) this.#remark(entry.line, `no line before it is message ${entry.number}`);
        }

        #message(message) {
            const next = (this.messages.at(-1)?.number ?? 0) + 1;
            if (message.number !== next) this.#remark(message.line, `message ${message.number} stands where ${next} comes next`);
            this.messages.push(message);
            const isInOrder = message.number === this.messages.length;
            if (!isInOrder && !this.messageOf(message.number)) this.strays.set(message.number, message);
            const { sent } = this.#last;
            if (sent.length === 0) this.#last.sent = [message]; // most entries send one or none
            else sent.push(message);
        }

        /** Lets the last entry count, once all its messages stand below it. */
        #flush() {
            const entry = this.#last;
            this.#last = null;
            if (!entry) return;
            if (entry.call === "CLOSE") return this.#close(entry);
            if (entry.about) {
                const payment = this.#payment(entry.about);
                this.#count(payment, entry);
                this.#apply(payment, entry);
            } else {
                this.apart.push(entry);
            }
            for (const message of entry.sent) {
                if (message.id === entry.about) {
                    message.id = entry.about; // one text for all that is about a payment takes less memory
                    continue;
                }
                this.#remark(message.line, `the entry above it isn’t about ${message.id}`);
                this.#apply(this.#payment(message.id), entry);
            }
        }

        #payment(id) {
            let payment = this.payments.get(id);
            if (!payment) {
                payment = new Payment(id);
                this.payments.set(id, payment);
            }
            return payment;
        }

        /** Lets an entry count for a payment that it is about, or sends a message about. */
        #apply(payment, entry) {
            const { standing } = payment;
            const wasOpened = payment.opened;
            if (payment.entries.at(-1) === entry) return;
            payment.entries.push(entry);
            if (entry.about === payment.id && entry.heard?.api === "ReqPay") this.#ask(payment, entry);
            this.#move(standing, entry, () => standing.apply(payment.id, entry));
            if (!wasOpened && payment.opened) {
                this.opened.push(payment);
                this.#place(payment);
            }
        }

        #ask(payment, entry) {
            if (!payment.asked) {
                payment.asked = entry;
                this.#place(payment);
            }
            if (entry.reply.word === "NO") payment.refusal = entry;
        }

        /** The accounts of its addresses, as far as the setup has them. */
        #place(payment) {
            payment.payerAccount = this.addresses.get(payment.request.payer)?.account ?? "";
            payment.payeeAccount = this.addresses.get(payment.request.payee)?.account ?? "";
        }

        /** Counts what befell the entry's message. */
        #count(payment, entry) {
            const { counts } = this;
            const { message } = entry;
            if (entry.call === "LOSE" && message && entry.reply.word === "LOST") {
                message.losses += 1;
                payment.lost += 1;
                counts.lost += 1;
            }
            entry.echo = payment.standing.echoes(entry);
            if (entry.call === "DELIVER" && message) {
                entry.again = message.deliveries;
                message.deliveries += 1;
                counts.delivered += 1;
            }
            if (entry.again > 0 || entry.echo) {
                payment.repeated += 1;
                counts.repeated += 1;
            }
            if (entry.call === "LATE" && entry.reply.word === "DONE") {
                payment.late += 1;
                counts.late += 1;
            }
            if (isRefusal(entry.reply)) {
                payment.refused += 1;
                counts.refused += 1;
            }
        }

        #close(entry) {
            this.apart.push(entry);
            if (this.closed || entry.reply.word !== "CLOSED") return;
            this.closed = entry;
            for (const payment of this.payments.values()) {
                const { standing } = payment;
                if (!payment.opened || standing.outcome) continue;
                payment.entries.push(entry);
                this.#move(standing, entry, () => standing.apply(payment.id, entry));
            }
        }

        /** Does what may move money, and keeps balances and money in flight with it. */
        #move(standing, entry, act) {
            const before = standing.flight;
            const move = act();
            if (!move) return;
            const account = this.accounts.get(move.account);
            const amount = BigInt(move.amount);
            if (account) account.balance += move.leg === "DEBIT" ? -amount : amount;
            else this.#remark(entry.line, `the account ${move.account} isn’t in the setup`);
            const change = standing.flight - before;
            if (change === 0) return;
            this.flight += BigInt(change);
            const point = this.flights.at(-1);
            if (point.place === entry.place) point.amount = this.flight;
            else this.flights.push({ place: entry.place, amount: this.flight });
        }
    }

    return { Journal, isRefusal };
})();
