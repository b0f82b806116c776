// The table of payments: search, filters, and rows of which only those in sight are made, so that it
// scrolls over 50,000 and more without delay.
"use strict";

Viewer.payments = (() => {
    const { el } = Viewer.dom;
    const { count, moment, clock, outcome, badge, chips } = Viewer.marks;
    const { writeSum, civil } = Viewer.grammar;

    /** Pixels of a row; style.css has the same. */
    const ROW = 34;
    /** Rows made above and below those in sight. */
    const SPARE = 12;
    /** Rows that a browser can lay out; what is beyond is told. */
    const MOST = 400_000;
    /** Rows that are printed. */
    const PRINTED = 2_000;

    const COLUMNS = ["Payment", "Kind", "Payer → payee", "Amount", "Outcome", "First to last moment", "Marks"];

    /** First and last moment; the date again only where it is another. */
    function moments(payment) {
        const first = payment.entries[0].at;
        const last = payment.entries.at(-1).at;
        if (first === last) return moment(first);
        return `${moment(first)} – ${civil(first)[0] === civil(last)[0] ? clock(last) : moment(last)}`;
    }

    /** The kinds of outcome that payments have, for the filter. */
    function outcomeChoices(payments) {
        const counts = new Map();
        const add = (key, label) => {
            const choice = counts.get(key) ?? { key, label, number: 0 };
            choice.number += 1;
            counts.set(key, choice);
        };
        for (const payment of payments) {
            const { kind, label } = outcome(payment);
            const group = { FAILURE: "FAILURE, any code", OPEN: "open", NONE: "not opened" }[kind] ?? kind;
            add(kind, group);
            if (label !== kind) add(label, label);
        }
        const order = ["SUCCESS", "DEEMED", "FAILURE", "OPEN", "NONE"];
        const rank = ({ key }) => order.indexOf(key) + 1 || order.length + 1;
        return [...counts.values()].sort((one, other) =>
            rank(one) - rank(other) || (one.label < other.label ? -1 : 1));
    }

    class PaymentsView {
        #root;
        #open;
        #all = [];
        #shown = [];
        #rows = new Map();
        #at = 0;
        #top = 0;
        #texts = new Map();

        /**
         * @param {HTMLElement} root
         * @param {Journal} journal
         * @param {(payment: Payment) => void} open   called when a payment is chosen
         */
        constructor(root, journal, open) {
            this.#root = root;
            this.#open = open;
            this.#all = [...journal.payments.values()];
            this.#make(journal);
            this.#filter();
        }

        /** The payments that are shown, in their order. */
        get shown() {
            return this.#shown;
        }

        /** Shows the table where it was left: what is hidden forgets how far it was scrolled. */
        show() {
            this.grid.scrollTop = this.#top;
            this.draw();
            this.grid.focus({ preventScroll: true });
        }

        /** Draws what is in sight. */
        draw() {
            if (this.grid.clientHeight === 0) return;
            const top = this.grid.scrollTop;
            this.#top = top;
            const first = Math.max(0, Math.floor(top / ROW) - SPARE);
            const last = Math.min(this.#shown.length, Math.ceil((top + this.grid.clientHeight) / ROW) + SPARE);
            this.#drawRows(first, last);
        }

        #make(journal) {
            const refilter = () => this.#filter();
            const select = (choices) => el("select", { change: refilter },
                [["", "any"], ...choices].map(([value, title]) => el("option", { value }, title)));
            this.search = el("input", { type: "search", placeholder: "name, address or amount", input: refilter });
            this.outcome = select(outcomeChoices(this.#all).map(({ key, label, number }) => [key, `${label} (${count(number)})`]));
            this.bank = select(journal.banks.map((bank) => [bank, bank]));
            this.psp = select(journal.psps.map((psp) => [psp, psp]));
            this.marked = el("input", { type: "checkbox", change: refilter });
            this.count = el("p", { class: "quiet", role: "status" });
            this.canvas = el("div", { class: "canvas", role: "rowgroup" });
            this.grid = el("div", {
                class: "grid", role: "grid", tabindex: "0", "aria-label": "Payments", "aria-colcount": COLUMNS.length,
                scroll: () => this.#soon(), keydown: (event) => this.#key(event), click: (event) => this.#click(event),
            }, this.#head(), this.canvas);
            this.#root.replaceChildren(
                el("form", { class: "filters", role: "search", submit: (event) => event.preventDefault() },
                    el("label", { class: "wide" }, "Search", this.search), el("label", {}, "Outcome", this.outcome),
                    el("label", {}, "Bank", this.bank), el("label", {}, "PSP", this.psp),
                    el("label", { class: "check" }, this.marked, "only with an item or money in flight")),
                this.count, this.grid);
        }

        #head() {
            return el("div", { role: "rowgroup", class: "grid-head" },
                el("div", { role: "row", class: "grid-row", "aria-rowindex": "1" },
                    COLUMNS.map((title) => el("span", { role: "columnheader" }, title))));
        }

        #soon() {
            this.waiting ??= requestAnimationFrame(() => {
                this.waiting = null;
                this.draw();
            });
        }

        /** What a payment is found by. */
        #text(payment) {
            let text = this.#texts.get(payment);
            if (text === undefined) {
                const { request } = payment;
                text = (request ? `${payment.id} ${request.payer} ${request.payee} ${writeSum(request.amount)}` : payment.id).toLowerCase();
                this.#texts.set(payment, text);
            }
            return text;
        }

        #filter() {
            const sought = this.search.value.trim().toLowerCase();
            const { value: kind } = this.outcome;
            const { value: bank } = this.bank;
            const { value: psp } = this.psp;
            const marked = this.marked.checked;
            const fits = (payment) => {
                if (sought && !this.#text(payment).includes(sought)) return false;
                if (kind) {
                    const come = outcome(payment);
                    if (come.kind !== kind && come.label !== kind) return false;
                }
                if (bank && payment.payerBank !== bank && payment.payeeBank !== bank) return false;
                if (psp && payment.payerPsp !== psp && payment.payeePsp !== psp) return false;
                return !marked || payment.isItem || payment.standing.flight > 0;
            };
            const found = this.#all.filter(fits);
            this.#shown = found.slice(0, MOST);
            this.count.textContent = `${count(found.length)} of ${count(this.#all.length)} payments` +
                (found.length > MOST ? `; the first ${count(MOST)} are listed` : "");
            this.grid.setAttribute("aria-rowcount", this.#shown.length + 1);
            this.canvas.style.height = `${this.#shown.length * ROW}px`;
            this.canvas.replaceChildren();
            this.#rows.clear();
            this.grid.scrollTop = 0;
            this.#at = 0;
            this.#mark();
            this.draw();
        }

        #drawRows(first, last) {
            for (const [at, row] of this.#rows) {
                if (at >= first && at < last) continue;
                row.remove();
                this.#rows.delete(at);
            }
            for (let at = first; at < last; at += 1) {
                if (this.#rows.has(at)) continue;
                const row = this.#row(this.#shown[at], at);
                this.#rows.set(at, row);
                this.canvas.append(row);
            }
        }

        #row(payment, at) {
            const { request } = payment;
            const stands = payment.isItem || payment.standing.flight > 0;
            const cell = (...content) => el("span", { role: "gridcell" }, ...content);
            const row = el("div", {
                role: "row", class: `grid-row${stands ? " stands-out" : ""}${at === this.#at ? " is-at" : ""}`,
                id: `payment-row-${at}`, "aria-rowindex": at + 2, "aria-selected": String(at === this.#at), "data-at": at,
            },
            cell(payment.id), cell(request?.kind ?? ""),
            cell(request ? `${request.payer} → ${request.payee}` : ""),
            cell(request ? writeSum(request.amount) : ""),
            cell(badge(outcome(payment))), cell(moments(payment)), cell(...chips(payment)));
            row.style.top = `${at * ROW}px`;
            return row;
        }

        #key(event) {
            const page = Math.max(1, Math.floor(this.grid.clientHeight / ROW) - 2);
            const steps = {
                ArrowDown: 1, ArrowUp: -1, PageDown: page, PageUp: -page,
                Home: -this.#shown.length, End: this.#shown.length,
            };
            if (event.key === "Enter" || event.key === " ") this.#choose();
            else if (event.key in steps) this.#go(this.#at + steps[event.key]);
            else return;
            event.preventDefault();
        }

        #click(event) {
            const row = event.target.closest("[data-at]");
            if (!row) return;
            this.#go(Number(row.dataset.at));
            this.#choose();
        }

        #choose() {
            const payment = this.#shown[this.#at];
            if (payment) this.#open(payment);
        }

        /** Goes to a row, and brings it into sight. */
        #go(at) {
            this.#at = Math.max(0, Math.min(this.#shown.length - 1, at));
            const top = this.#at * ROW;
            const head = this.grid.firstElementChild.offsetHeight;
            if (top < this.grid.scrollTop) this.grid.scrollTop = top;
            const room = this.grid.clientHeight - head - ROW;
            if (top > this.grid.scrollTop + room) this.grid.scrollTop = top - room;
            this.draw();
            this.#mark();
        }

        #mark() {
            for (const [at, row] of this.#rows) {
                row.classList.toggle("is-at", at === this.#at);
                row.setAttribute("aria-selected", String(at === this.#at));
            }
            if (this.#shown.length > 0) this.grid.setAttribute("aria-activedescendant", `payment-row-${this.#at}`);
            else this.grid.removeAttribute("aria-activedescendant");
        }

        /** Makes the rows that are printed, in their order: on paper they stand one below the other. */
        print() {
            this.canvas.replaceChildren();
            this.#rows.clear();
            this.#drawRows(0, Math.min(this.#shown.length, PRINTED));
        }

        /** Goes back to the rows in sight. */
        printed() {
            this.draw();
        }
    }

    return { PaymentsView };
})();
