// The words of the journal: small texts, sums of money, moments and codes, by docs/FORMATS.md.
// Knows nothing of lines, of payments or of the page.
"use strict";
globalThis.Viewer ??= {};

Viewer.grammar = (() => {
    /** The greatest sum that is read, in paise. */
    const MAX_PAISE = 10 ** 15;
    /** The last moment, in seconds after 1970-01-01T00:00:00Z. */
    const MAX_MOMENT = 250_000_000_000;
    /** India's time, in seconds ahead of UTC. */
    const INDIA = 19_800;

    const CODES = new Set(("FORMAT CLOSED DUP NOTYOURS ADDR ACCOUNT SAME AMT FULL NOTXN EARLY EXPIRED " +
        "AUTHLATE DECLINED DEBITLATE CREDITLATE FUNDS NODEBIT NOCREDIT CAP REVERSED NOTHING").split(" "));
    const FAULTS = new Set("JSON ROOT MISSING KIND VALUE COUNT DIFFERS".split(" "));
    const LEGS = new Set(["DEBIT", "CREDIT", "REVERSAL"]);

    const matcher = (pattern) => (text) => pattern.test(text);
    const isTxnId = matcher(/^[A-Za-z0-9._-]{1,35}$/);
    const isOrgId = matcher(/^[A-Za-z0-9._-]{1,20}$/);
    const isPspName = matcher(/^[a-z][a-z0-9]{0,19}$/);
    const isBankCode = matcher(/^[A-Z]{4}$/);
    const isAccountNumber = matcher(/^[A-Za-z0-9]{1,20}$/);
    const isAddress = matcher(/^[A-Za-z0-9._-]{1,50}@[a-z][a-z0-9]{0,19}$/);
    const isAccount = matcher(/^[A-Z]{4}\/[A-Za-z0-9]{1,20}$/);
    const isPath = matcher(/^(?:-|[A-Za-z0-9.[\]]{1,100})$/);
    const isTwoDigits = matcher(/^[0-9]{2}$/);
    const isPolicy = matcher(/^(?:YES|NO|ASK)$/);
    const isPlain = matcher(/^[^\u0000-\u001f\u007f]+$/);

    /** Whether a text is a note: 1 to 100 bytes of UTF-8 without a byte below 32 or the byte 127. */
    function isNote(text) {
        return isPlain(text) && new TextEncoder().encode(text).length <= 100;
    }

    /** The number that 1 to 18 digits spell, or null. */
    function readNumber(text) {
        let number = 0;
        for (let at = 0; at < text.length; at += 1) {
            const digit = text.charCodeAt(at) - 48;
            if (digit < 0 || digit > 9) return null;
            number = number * 10 + digit;
        }
        return text.length > 0 && text.length <= 18 ? number : null;
    }

    /** A sum of money in paise, or null outside the grammar or the range. */
    function readPaise(text) {
        const parts = /^([0-9]{1,14})(?:\.([0-9]{1,2}))?$/.exec(text);
        if (!parts) return null;
        const cents = (parts[2] ?? "").padEnd(2, "0");
        const paise = Number(parts[1]) * 100 + Number(cents);
        return paise <= MAX_PAISE ? paise : null;
    }

    /** A sum as a report writes it, perhaps negative, as a BigInt of paise; or null. */
    function readSum(text) {
        return /^-?(?:0|[1-9][0-9]{0,37})\.[0-9]{2}$/.test(text) ? BigInt(text.replace(".", "")) : null;
    }

    /** Paise, a number or a BigInt, with two decimals. */
    function writeSum(paise) {
        const sum = BigInt(paise);
        const digits = (sum < 0n ? -sum : sum).toString().padStart(3, "0");
        return `${sum < 0n ? "-" : ""}${digits.slice(0, -2)}.${digits.slice(-2)}`;
    }

    const CIVIL = /^(\d{4})-(\d{2})-(\d{2})T(\d{2}):(\d{2}):(\d{2})(?:\.\d{1,9})?(Z|[+-]\d{2}:\d{2})$/;

    /** A moment in seconds after 1970-01-01T00:00:00Z, or null outside the grammar or the range. */
    function readMoment(text) {
        const parts = CIVIL.exec(text);
        if (!parts) return null;
        const [year, month, day, hour, minute, second] = parts.slice(1, 7).map(Number);
        const zone = parts[7] === "Z" ? [0, 0] : [Number(parts[7].slice(1, 3)), Number(parts[7].slice(4))];
        if (hour > 23 || minute > 59 || second > 59 || zone[0] > 23 || zone[1] > 59) return null;
        const date = new Date(0);
        date.setUTCFullYear(year, month - 1, day);
        if (date.getUTCMonth() !== month - 1 || date.getUTCDate() !== day) return null;
        const offset = (zone[0] * 3600 + zone[1] * 60) * (parts[7][0] === "-" ? -1 : 1);
        const moment = date.getTime() / 1000 + hour * 3600 + minute * 60 + second - offset;
        return moment >= 0 && moment <= MAX_MOMENT ? moment : null;
    }

    /** A moment's date and its time of day in India: `["2024-01-01", "05:30:00"]`. */
    function civil(moment) {
        const text = new Date((moment + INDIA) * 1000).toISOString();
        return [text.slice(0, 10), text.slice(11, 19)];
    }

    /** The last text that was a written moment: one comes many times in a row. */
    let lastMoment = "";

    /** Whether a text is a moment in its one written form. */
    function isWrittenMoment(text) {
        if (text === lastMoment) return true;
        const moment = readMoment(text);
        if (moment === null || text !== `${civil(moment).join("T")}+05:30`) return false;
        lastMoment = text;
        return true;
    }

    /** An outcome, or the answer to a question for one: its word, and the code of a FAILURE. */
    function readOutcome(words) {
        const [word, code] = words;
        if (word === "FAILURE") return words.length === 2 && CODES.has(code) ? { word, code } : null;
        return words.length === 1 && (word === "SUCCESS" || word === "DEEMED") ? { word, code: "" } : null;
    }

    return {
        MAX_MOMENT, CODES, FAULTS, LEGS,
        isTxnId, isOrgId, isPspName, isBankCode, isAccountNumber, isAddress, isAccount, isPath,
        isTwoDigits, isPolicy, isNote, readNumber, readPaise, readSum, writeSum, readMoment, civil,
        isWrittenMoment, readOutcome,
    };
})();
