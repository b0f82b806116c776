// How things are called and marked, in all views alike: outcomes, stages, money, moments, and what
// befell a message. Each mark is a shape and a word, and never a colour alone.
"use strict";

Viewer.marks = (() => {
    const { el } = Viewer.dom;
    const { writeSum, civil } = Viewer.grammar;

    const GLYPHS = { SUCCESS: "✓", DEEMED: "≈", FAILURE: "✕", OPEN: "…", NONE: "–" };
    const STAGES = {
        NONE: "not opened", ASKING: "Asking", DEBITING: "Debiting", CREDITING: "Crediting",
        REVERSING: "Reversing", ENDED: "Ended",
    };

    const text = (parts) => parts.filter(Boolean).join(" ");

    /** A count, in groups of three digits. */
    const count = (number) => number.toLocaleString("en-US");

    /** `05:30:00`, with the date before it. */
    const moment = (at) => civil(at).join(" ");
    const clock = (at) => civil(at)[1];

    /** What a payment came to: `{kind, label}`. */
    function outcome(payment) {
        const { standing } = payment;
        if (standing.outcome) return { kind: standing.outcome.word, label: text([standing.outcome.word, standing.outcome.code]) };
        if (payment.opened) return { kind: "OPEN", label: `open: ${STAGES[standing.stage]}` };
        return { kind: "NONE", label: payment.refusal ? `not opened: ${payment.refusal.reply.code}` : "not opened" };
    }

    /** An outcome as a badge. */
    function badge({ kind, label }) {
        return el("span", { class: `badge is-${kind.toLowerCase()}` },
            el("span", { class: "glyph", "aria-hidden": "true" }, GLYPHS[kind]), label);
    }

    /** A word in a frame. */
    function chip(kind, label) {
        return el("span", { class: `chip is-${kind}` }, label);
    }

    /** What stands out of a payment, as chips. */
    function chips(payment) {
        const { flight } = payment.standing;
        const some = (number, word) => number > 0 && chip(word, `${count(number)} ${word}`);
        return [
            payment.isItem && chip("item", "◆ item"),
            flight > 0 && chip("flight", "▲ in flight"),
            some(payment.lost, "lost"), some(payment.repeated, "repeated"),
            some(payment.late, "late"), some(payment.refused, "refused"),
        ].filter(Boolean);
    }

    /** How a payment stands, in words. */
    function stands(standing) {
        if (standing.outcome) return text([standing.outcome.word, standing.outcome.code]);
        const why = standing.stage === "REVERSING" && `(${standing.cause})`;
        return text([STAGES[standing.stage], why]);
    }

    /** What a message says, in short. */
    function tell(message) {
        const { body } = message;
        const said = message.outcome && text([message.outcome.word, message.outcome.code]);
        if (body === "ANSWER") return text([body, message.leg, message.said, message.code]);
        if (body === "RESPAUTH") return text([body, writeSum(message.amount), message.said]);
        return text([body, message.outcome ? said : body !== "CONFIRMED" && writeSum(message.amount)]);
    }

    /** What a PSP said, in short. */
    function tellHeard(heard) {
        if (heard.api === "ReqPay") return text([heard.api, heard.kind, writeSum(heard.amount)]);
        if (heard.api === "RespAuthDetails") return text([heard.api, writeSum(heard.amount), heard.result]);
        return heard.api;
    }

    return { STAGES, count, moment, clock, outcome, badge, chip, chips, stands, tell, tellHeard };
})();
