// How one payment stands after some of its entries, by what the journal says of them: the replies, and
// the messages that were sent. It judges nothing: whether a reply is the right one isn't asked here.
// Knows nothing of other payments, of accounts' balances, or of the page.
"use strict";

Viewer.standing = (() => {
    /** Seconds that an answer to a PAY, a leg, a reversal or a confirmation may take. */
    const DUE_SECONDS = 30;
    const DEFAULT_MINUTES = 30;
    const MAX_CONFIRMATIONS = 4;

    /**
     * Money that a leg moved.
     * @typedef {{leg: string, account: string, amount: number}} Move   paise
     */

    class Standing {
        constructor() {
            /** The entry that opened the payment, if one did. */
            this.opening = null;
            /** NONE, ASKING, DEBITING, CREDITING, REVERSING or ENDED. */
            this.stage = "NONE";
            /** The moment after which a Late ends the wait, or null. */
            this.due = null;
            /** @type {?{word: string, code: string}} */
            this.outcome = null;
            /** Why a reversal is wanted. */
            this.cause = "";
            /** For each leg the entry of its first arrival at the bank, or null. */
            this.arrivals = { DEBIT: null, CREDIT: null, REVERSAL: null };
            /** For each leg whether its answer was heard. */
            this.answered = { DEBIT: false, CREDIT: false, REVERSAL: false };
            /** For each leg whether it moved the amount. */
            this.moved = { DEBIT: false, CREDIT: false, REVERSAL: false };
            this.confirms = 0;
            this.confirmed = false;
        }

        /** Paise of this payment that have left one account and not come to another, nor back. */
        get flight() {
            return this.moved.DEBIT && !this.moved.CREDIT && !this.moved.REVERSAL
                ? this.arrivals.DEBIT?.message.amount ?? 0
                : 0;
        }

        /** Whether the entry says again what was heard before, and so changes nothing. */
        echoes(entry) {
            if (entry.reply.word !== "OK" || entry.sent.length > 0) return false;
            const message = entry.message;
            if (entry.call === "HEAR") {
                return entry.heard.api === "RespTxnConfirmation" ? this.confirmed : this.stage !== "NONE";
            }
            if (entry.call !== "DELIVER" || !message) return false;
            if (message.body === "ANSWER") return this.answered[message.leg];
            return message.body === "CONFIRMED" ? this.confirmed : message.body === "RESPAUTH";
        }

        /**
         * Takes one more entry that is about this payment, or sends a message about it.
         * @param {string} id    the payment's name
         * @returns {?Move}      what it moved, if anything
         */
        apply(id, entry) {
            if (entry.call === "CLOSE") return this.#close();
            const isOwn = entry.about === id;
            const move = isOwn && entry.call === "DELIVER" ? this.#deliver(entry) : null;
            if (isOwn && entry.call === "HEAR" && entry.reply.word === "OK") this.#hear(entry);
            for (const message of entry.sent) if (message.id === id) this.#send(entry, message);
            return move;
        }

        #hear(entry) {
            const { api } = entry.heard;
            if (api === "ReqPay" && !this.opening) this.opening = entry;
            if (api === "RespTxnConfirmation") this.#confirm();
        }

        #confirm() {
            this.confirmed = true;
            if (this.stage === "ENDED") this.due = null;
        }

        #deliver(entry) {
            const { message, reply } = entry;
            if (message.body === "CONFIRMED" && reply.word === "OK") this.#confirm();
            if (message.body === "ANSWER" && reply.word === "OK") this.answered[message.leg] = true;
            const isOrder = message.body === message.leg;
            if (!isOrder || this.arrivals[message.leg]) return null;
            if (reply.word !== "POSTED" && reply.word !== "DECLINED") return null;
            this.arrivals[message.leg] = entry;
            if (reply.word === "DECLINED") return null;
            this.moved[message.leg] = true;
            return { leg: message.leg, account: message.account, amount: message.amount };
        }

        #send(entry, message) {
            switch (message.body) {
                case "REQAUTH": return this.#goTo("ASKING", entry.at + this.#patience());
                case "DEBIT": return this.#goTo("DEBITING", entry.at + DUE_SECONDS);
                case "CREDIT": return this.#goTo("CREDITING", entry.at + DUE_SECONDS);
                case "REVERSAL":
                    if (this.stage !== "REVERSING") this.cause = entry.message?.code || "DEBITLATE";
                    return this.#goTo("REVERSING", entry.at + DUE_SECONDS);
                case "RESPPAY":
                    this.outcome ??= message.outcome;
                    return this.#goTo("ENDED", null);
                case "CONFIRM":
                    this.outcome ??= message.outcome;
                    this.confirms += 1;
                    return this.#goTo("ENDED", this.confirms < MAX_CONFIRMATIONS ? entry.at + DUE_SECONDS : null);
            }
        }

        /** Seconds that the asked PSP has to answer. */
        #patience() {
            const asked = this.opening?.heard;
            return asked?.kind === "COLLECT" ? 60 * (asked.minutes ?? DEFAULT_MINUTES) : DUE_SECONDS;
        }

        #goTo(stage, due) {
            this.stage = stage;
            this.due = due;
        }

        /** A Close ends what is open, and a moved debit that it doesn't settle comes back. */
        #close() {
            const { stage } = this;
            this.due = null;
            if (!this.opening || this.outcome) return null;
            this.stage = "ENDED";
            if (stage === "CREDITING") {
                this.outcome = { word: "DEEMED", code: "" };
                return null;
            }
            this.outcome = { word: "FAILURE", code: stage === "REVERSING" ? this.cause : "CLOSED" };
            if (!this.moved.DEBIT || this.arrivals.REVERSAL) return null;
            this.moved.REVERSAL = true;
            const { account, amount } = this.arrivals.DEBIT.message;
            return { leg: "REVERSAL", account, amount };
        }
    }

    return { Standing };
})();
