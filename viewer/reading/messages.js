// The messages that PSPs send: reads the JSON of a HEAR line, which stands in its one written form.
// Knows nothing of lines, of payments or of the page.
//
// A message is read into what is kept of it and, beside that, built up again member by member in byte
// order of their names. Where that isn't the text that was read, it isn't the written form.
"use strict";

Viewer.messages = (() => {
    const { isTxnId, isOrgId, isBankCode, isAccountNumber, isAddress, isTwoDigits, isNote, readPaise,
        writeSum, isWrittenMoment } = Viewer.grammar;

    /** What a PSP may not send; only the head of it is kept. */
    const FOREIGN = new Set(["RespPay", "ReqAuthDetails", "RespChkTxn", "ReqTxnConfirmation"]);

    /** Thrown where a text isn't in the written form; never leaves this file. */
    class Unwritten extends Error {}

    function need(holds) {
        if (!holds) throw new Unwritten();
    }

    /** The value, where it is a text that the rule allows. */
    function textOf(value, rule) {
        need(typeof value === "string" && rule(value));
        return value;
    }

    function head(tree) {
        return {
            msgId: textOf(tree.msgId, isTxnId),
            orgId: textOf(tree.orgId, isOrgId),
            ts: textOf(tree.ts, isWrittenMoment),
            ver: textOf(tree.ver, (ver) => ver === "1.0" || ver === "2.0"),
        };
    }

    function amount(tree) {
        const paise = readPaise(textOf(tree.value, () => true));
        need(tree.curr === "INR" && paise !== null);
        return { curr: "INR", value: writeSum(paise) };
    }

    /** An account as it is written, or undefined where the party gives none. */
    function account(party) {
        if (party.Ac === undefined) return undefined;
        const [ifsc, number] = party.Ac.Detail.map((item) => item.value);
        textOf(ifsc, (text) => text.endsWith("0000000") && isBankCode(text.slice(0, -7)));
        return {
            Detail: [
                { name: "IFSC", value: ifsc },
                { name: "ACNUM", value: textOf(number, isAccountNumber) },
            ],
            addrType: "ACCOUNT",
        };
    }

    function accountText(written) {
        return written && `${written.Detail[0].value.slice(0, 4)}/${written.Detail[1].value}`;
    }

    function minutes(txn) {
        if (txn.Rules === undefined) return undefined;
        const value = textOf(txn.Rules.Rule[0].value, (text) => /^[1-9][0-9]{0,4}$/.test(text));
        need(Number(value) <= 64_800);
        return { Rule: [{ name: "EXPIREAFTER", value }] };
    }

    function onlyPayee(payees) {
        need(Array.isArray(payees.Payee));
        return payees.Payee[0];
    }

    function payment(tree) {
        const txn = tree.Txn;
        const payee = onlyPayee(tree.Payees);
        const Head = head(tree.Head);
        const second = Head.ver === "2.0";
        const written = {
            Head,
            Payees: { Payee: [{ Ac: account(payee), addr: textOf(payee.addr, isAddress) }] },
            Payer: {
                Ac: account(tree.Payer),
                Amount: amount(tree.Payer.Amount),
                addr: textOf(tree.Payer.addr, isAddress),
            },
            Txn: {
                Rules: minutes(txn),
                id: textOf(txn.id, isTxnId),
                initiationMode: second ? textOf(txn.initiationMode, isTwoDigits) : undefined,
                note: txn.note === undefined ? undefined : textOf(txn.note, isNote),
                purpose: second ? textOf(txn.purpose, isTwoDigits) : undefined,
                type: textOf(txn.type, (type) => type === "PAY" || type === "COLLECT"),
            },
        };
        return [written, {
            kind: written.Txn.type,
            payer: written.Payer.addr,
            payee: written.Payees.Payee[0].addr,
            amount: readPaise(written.Payer.Amount.value),
            minutes: written.Txn.Rules ? Number(written.Txn.Rules.Rule[0].value) : null,
            note: written.Txn.note ?? "",
            payerAccount: accountText(written.Payer.Ac) ?? "",
            payeeAccount: accountText(written.Payees.Payee[0].Ac) ?? "",
            initiationMode: written.Txn.initiationMode ?? "",
            purpose: written.Txn.purpose ?? "",
        }];
    }

    function approval(tree) {
        const payees = tree.Payees;
        const written = {
            Head: head(tree.Head),
            Payees: payees && { Payee: [{ Ac: account(onlyPayee(payees)) }] },
            Payer: { Ac: account(tree.Payer), Amount: amount(tree.Payer.Amount) },
            Resp: {
                reqMsgId: textOf(tree.Resp.reqMsgId, isTxnId),
                result: textOf(tree.Resp.result, (word) => word === "SUCCESS" || word === "FAILURE"),
            },
            Txn: { id: textOf(tree.Txn.id, isTxnId) },
        };
        need(!payees || written.Payees.Payee[0].Ac);
        return [written, { result: written.Resp.result, amount: readPaise(written.Payer.Amount.value) }];
    }

    function question(tree) {
        return [{ Head: head(tree.Head), Txn: { id: textOf(tree.Txn.id, isTxnId) } }, {}];
    }

    function confirmation(tree) {
        return [{
            Head: head(tree.Head),
            Resp: { reqMsgId: textOf(tree.Resp.reqMsgId, isTxnId) },
            Txn: { id: textOf(tree.Txn.id, isTxnId) },
        }, {}];
    }

    function foreign(tree) {
        return [{ Head: head(tree.Head) }, {}];
    }

    const READERS = new Map([
        ["ReqPay", payment],
        ["RespAuthDetails", approval],
        ["ReqChkTxn", question],
        ["RespTxnConfirmation", confirmation],
        ...[...FOREIGN].map((api) => [api, foreign]),
    ]);

    /**
     * What is kept of a message.
     * @typedef {{api: string, msgId: string, orgId: string, ver: string, id: string, kind?: string,
     *   payer?: string, payee?: string, amount?: number, minutes?: ?number, note?: string,
     *   payerAccount?: string, payeeAccount?: string, initiationMode?: string, purpose?: string,
     *   result?: string}} Heard   `id` is empty where the message is about no transaction; `amount` in paise
     */

    /**
     * Reads a message.
     * @param {string} json
     * @returns {?Heard} null where the text isn't the written form of a message
     */
    function read(json) {
        try {
            const tree = JSON.parse(json);
            const api = Object.keys(tree)[0];
            const [written, kept] = READERS.get(api)(tree[api]);
            if (JSON.stringify({ [api]: written }) !== json) return null;
            const { msgId, orgId, ver } = written.Head;
            return { api, msgId, orgId, ver, id: written.Txn?.id ?? "", ...kept };
        } catch (fault) {
            if (fault instanceof Unwritten || fault instanceof TypeError || fault instanceof SyntaxError) {
                return null; // a member that isn't there, or isn't of its kind, or no JSON at all
            }
            throw fault;
        }
    }

    return { read };
})();
