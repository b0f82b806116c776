// One payment: what it is, and its messages as a sequence between the PSPs, the switch and the banks,
// in the order of the history. Each step opens to its lines and, where a PSP was heard, to the message
// laid out.
"use strict";

Viewer.payment = (() => {
    const { el } = Viewer.dom;
    const { Standing } = Viewer.standing;
    const { isRefusal } = Viewer.journal;
    const { jsonOf } = Viewer.reader;
    const { moment, clock, outcome, badge, chip, chips, stands, tell, tellHeard } = Viewer.marks;
    const { writeSum } = Viewer.grammar;
    const arrows = Viewer.arrows;

    /** Who takes part, from left to right: `{names, roles}`. */
    function lanesOf(payment) {
        const { request } = payment;
        const roles = new Map();
        const add = (name, role) => {
            if (name) roles.set(name, roles.has(name) ? `${roles.get(name)} and ${role}` : role);
        };
        if (request) {
            add(payment.payerPsp, "payer’s PSP");
            add(payment.payerBank, "payer’s bank");
        }
        add("SWITCH", "the switch");
        if (request) {
            add(payment.payeeBank, "payee’s bank");
            add(payment.payeePsp, "payee’s PSP");
        }
        const other = (name) => {
            if (name && !roles.has(name)) roles.set(name, /^[A-Z]{4}$/.test(name) ? "another bank" : "another PSP");
        };
        for (const entry of payment.entries) {
            other(entry.psp);
            for (const message of [...entry.sent, entry.message]) {
                if (message?.id !== payment.id) continue;
                other(message.from);
                other(message.to);
            }
        }
        const short = (role) => role.replace(/^payer’s (PSP|bank) and payee’s .*/, "both sides’ $1");
        return { names: [...roles.keys()], roles: [...roles.values()].map(short) };
    }

    /** What befell a step, as chips. */
    function marksOf(entry) {
        const { reply } = entry;
        return [
            reply.word === "LOST" && chip("lost", "✕ lost"),
            entry.call === "LATE" && chip("late", reply.word === "DONE" ? "late" : "not due"),
            entry.again > 0 && chip("repeated", `» repeated, delivery ${entry.again + 1}`),
            entry.echo && chip("repeated", "» says it again"),
            isRefusal(reply) && chip("refused", `⊘ ${reply.text}`),
        ].filter(Boolean);
    }

    /** What a step draws. */
    function drawingOf(entry, id, lanes) {
        const { call, message, reply } = entry;
        const at = (name) => Math.max(0, lanes.indexOf(name));
        const sends = entry.sent.filter((sent) => sent.id === id)
            .map((sent) => `M${sent.number} ${sent.body} → ${sent.to}`);
        const base = { reply: `= ${reply.text}`, again: entry.again > 0 || entry.echo, sends, at: at("SWITCH"), from: 0, to: 0 };
        const shape = isRefusal(reply) ? "refused" : "told";
        if (!message && (call === "DELIVER" || call === "LOSE")) {
            return { ...base, shape: "unknown", label: `${call} ${entry.number}, which no line is` };
        }
        switch (call) {
            case "HEAR":
                return { ...base, shape, from: at(entry.psp), to: at("SWITCH"), label: tellHeard(entry.heard) };
            case "DELIVER":
                return { ...base, shape, from: at(message.from), to: at(message.to), at: at(message.to), label: `M${message.number} ${tell(message)}` };
            case "LOSE":
                return { ...base, shape: reply.word === "LOST" ? "lost" : shape, from: at(message.from), to: at(message.to), label: `M${message.number} ${tell(message)}` };
            case "LATE":
                return { ...base, shape: "late", from: lanes.length, label: "LATE" }; // its words stand to the right
            default:
                return { ...base, shape: "close", label: "CLOSE" };
        }
    }

    /** A step in words, for those who hear the page. */
    function wordsOf(entry, drawing, lanes, after) {
        const isArrow = ["told", "refused", "lost"].includes(drawing.shape);
        const way = isArrow ? `, ${lanes[drawing.from]} to ${lanes[drawing.to]}` : "";
        const befell = isArrow && drawing.shape !== "told" ? `, ${drawing.shape}` : "";
        const sends = drawing.sends.map((said) => `; sends ${said.replace("→", "to")}`).join("");
        return `Entry ${entry.place}, ${moment(entry.at)}: ${drawing.label}${way}${befell}${drawing.again ? ", repeated" : ""}, ${drawing.reply}${sends}. Then: ${after}`;
    }

    function lineOf(item, what) {
        return [el("dt", {}, `${what}, line ${item.line}`), el("dd", {}, el("code", { class: "line" }, item.text))];
    }

    /** All that the journal says of a step. */
    function bodyOf(entry, id) {
        const { message } = entry;
        const others = entry.sent.filter((sent) => sent.id !== id).length;
        return [
            el("dl", { class: "lines" },
                lineOf(entry, `Entry ${entry.place}`),
                message && lineOf(message, `Message ${message.number}, which it ${entry.call === "LOSE" ? "loses" : "delivers"}`),
                entry.sent.map((sent) => lineOf(sent, `Sends message ${sent.number}`))),
            others > 0 && el("p", { class: "quiet" }, `${others} of these messages are about other payments.`),
            entry.heard && el("p", { class: "quiet" }, `What ${entry.psp} said, laid out:`),
            entry.heard && el("pre", { class: "json" }, JSON.stringify(JSON.parse(jsonOf(entry)), null, 2)),
        ].filter(Boolean);
    }

    function standsOf(standing, changed) {
        const due = standing.due !== null && `due ${clock(standing.due)}`;
        const flight = standing.flight > 0 && `${writeSum(standing.flight)} in flight`;
        const told = standing.outcome && standing.confirmed && "confirmed";
        return el("span", { class: changed ? "stands" : "stands as-before" },
            el("b", {}, stands(standing)),
            el("small", {}, [due, flight, told].filter(Boolean).join(", ")));
    }

    /** What a payment is, and how it ended, as pairs of a title and a value. */
    function factsOf(payment) {
        const { request, standing } = payment;
        if (!request) return [["Opened", "no; the journal has no ReqPay of this name"]];
        const account = (text) => text || "not in the setup";
        const leg = (name) => {
            const entry = standing.arrivals[name];
            if (entry) return `${entry.reply.text}, entry ${entry.place}`;
            return standing.moved[name] ? "posted by the Close" : "the order didn’t arrive";
        };
        const asks = request.kind === "COLLECT" ? payment.payeePsp : payment.payerPsp;
        const asked = request.kind === "COLLECT" ? payment.payerPsp : payment.payeePsp;
        return [
            ["Payer", `${request.payer}, account ${account(payment.payerAccount)}`],
            ["Payee", `${request.payee}, account ${account(payment.payeeAccount)}`],
            ["Asks, is asked", `${asks}, ${asked}`],
            ["Opened", payment.opened ? `entry ${standing.opening.place}, ${moment(standing.opening.at)}`
                : `no: ${payment.refusal?.reply.text ?? "not accepted"}`],
            request.minutes !== null && ["May take", request.minutes === 1 ? "1 minute" : `${request.minutes} minutes`],
            request.note && ["Note", request.note],
            request.ver === "2.0" && ["Version 2.0", `initiationMode ${request.initiationMode}, purpose ${request.purpose}`],
            payment.opened && ["Debit", leg("DEBIT")],
            payment.opened && ["Credit", leg("CREDIT")],
            (standing.arrivals.REVERSAL || standing.moved.REVERSAL) && ["Reversal", leg("REVERSAL")],
        ].filter(Boolean);
    }

    const LEGEND = [
        ["told", false, "delivered"], ["told", true, "repeated"], ["lost", false, "lost"],
        ["refused", false, "refused"], ["late", false, "late"], ["waiting", false, "never delivered"],
    ];

    function legend() {
        return el("ul", { class: "legend", "aria-label": "Shapes" }, LEGEND.map(([shape, again, word]) =>
            el("li", {}, arrows.sample(shape, again), word)));
    }

    class PaymentView {
        #root;
        #beside;
        #open;
        #steps = [];

        /**
         * @param {HTMLElement} root
         * @param {(payment: Payment, by: number) => ?Payment} beside   the one before (-1) or after (1) it
         * @param {(payment: Payment) => void} open                     called when one is chosen
         */
        constructor(root, beside, open) {
            this.#root = root;
            this.#beside = beside;
            this.#open = open;
        }

        show(payment) {
            const { request } = payment;
            this.payment = payment;
            this.#steps = [];
            const button = (label, act) => el("button", { type: "button", click: act, disabled: !act }, label);
            const go = (label, to) => button(label, to && (() => this.#open(to)));
            this.#root.replaceChildren(
                el("div", { class: "payment-head" },
                    el("h3", {}, payment.id),
                    request && el("span", { class: "sum" }, `${request.kind} ${writeSum(request.amount)}`),
                    badge(outcome(payment)), chips(payment),
                    el("span", { class: "row push" }, go("← Previous", this.#beside(payment, -1)), go("Next →", this.#beside(payment, 1)))),
                el("dl", { class: "facts" }, factsOf(payment).map(([title, text]) =>
                    el("div", {}, el("dt", {}, title), el("dd", {}, text)))),
                this.#reportOf(payment),
                el("div", { class: "row" }, legend(),
                    el("span", { class: "row push" }, button("Open all steps", () => this.openAll(true)), button("Close all", () => this.openAll(false)))),
                el("div", { class: "sequence-box" }, this.#sequence(payment)));
        }

        focus() {
            this.#steps[0]?.head.focus({ preventScroll: true });
        }

        openAll(open) {
            for (const step of this.#steps) this.#toggle(step, open);
        }

        #reportOf(payment) {
            if (payment.report.length === 0) return null;
            return el("details", { class: "report-lines" },
                el("summary", {}, `The report’s lines on ${payment.id} (${payment.report.length})`),
                el("ul", {}, payment.report.map((said) => el("li", {}, el("code", {}, said.text), el("small", {}, ` line ${said.line}`)))));
        }

        #sequence(payment) {
            const { names, roles } = lanesOf(payment);
            const standing = new Standing();
            const list = el("ol", { class: "sequence", keydown: (event) => this.#key(event) });
            let before = stands(standing);
            for (const entry of payment.entries) {
                standing.apply(payment.id, entry);
                const after = stands(standing);
                list.append(this.#step(entry, payment, names, standing, after !== before));
                before = after;
            }
            for (const message of this.#waiting(payment)) list.append(this.#onItsWay(message, names));
            const head = el("div", { class: "step-row sequence-head" },
                el("span", {}, "Entry"), arrows.heads(names, roles), el("span", {}, "Where it stands after it"));
            return [head, list];
        }

        #step(entry, payment, lanes, standing, changed) {
            const drawing = drawingOf(entry, payment.id, lanes);
            const id = `step-${entry.place}`;
            const since = entry.at - payment.entries[0].at;
            const body = el("div", { class: "step-body", id, hidden: true });
            const head = el("button", {
                type: "button", class: "step-row step-head", "aria-expanded": "false", "aria-controls": id,
                "aria-label": wordsOf(entry, drawing, lanes, stands(standing)),
            },
            el("span", { class: "when" }, el("b", {}, `E ${entry.place}`),
                el("small", {}, since === 0 ? "" : `${since > 0 ? "+" : "−"}${Math.abs(since)} s`), el("span", {}, clock(entry.at))),
            arrows.draw(lanes, drawing),
            el("span", { class: "after" }, standsOf(standing, changed), el("span", { class: "chips" }, marksOf(entry))));
            const step = { head, body, entry };
            head.addEventListener("click", () => this.#toggle(step, body.hidden));
            this.#steps.push(step);
            return el("li", { class: `step is-${drawing.shape}` }, head, body);
        }

        #toggle({ head, body, entry }, open) {
            if (open && !body.hasChildNodes()) body.append(...bodyOf(entry, this.payment.id));
            body.hidden = !open;
            head.setAttribute("aria-expanded", String(open));
        }

        /** Messages of a payment that no entry delivered or lost. */
        #waiting(payment) {
            return payment.entries.flatMap((entry) => entry.sent)
                .filter((message) => message.id === payment.id && message.deliveries === 0 && message.losses === 0);
        }

        /** A message that is still on its way. */
        #onItsWay(message, lanes) {
            const drawing = {
                shape: "waiting", again: false, sends: [], at: 0, reply: "",
                from: lanes.indexOf(message.from), to: lanes.indexOf(message.to), label: `M${message.number} ${tell(message)}`,
            };
            return el("li", { class: "step is-waiting" }, el("div", { class: "step-row" },
                el("span", { class: "when" }, el("b", {}, `M ${message.number}`), el("small", {}, `line ${message.line}`)),
                arrows.draw(lanes, drawing),
                el("span", { class: "after" }, el("span", { class: "chips" }, chip("waiting", "○ never delivered")),
                    el("code", { class: "line" }, message.text))));
        }

        /** Up and down go from step to step. */
        #key(event) {
            const way = { ArrowDown: 1, ArrowUp: -1 }[event.key];
            const at = this.#steps.findIndex(({ head }) => head === event.target);
            if (!way || at < 0) return;
            this.#steps[at + way]?.head.focus();
            event.preventDefault();
        }
    }

    return { PaymentView };
})();
