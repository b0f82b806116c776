// What the entries of a journal come to, as lines of a report, and where the journal's own report says
// something else. It says that they differ, not which of them is right.
// Knows nothing of the page.
"use strict";

Viewer.agreement = (() => {
    const { writeSum } = Viewer.grammar;

    /**
     * What each bank settles.
     * @returns {Map<string, {paid: bigint, received: bigint, paidCount: number, receivedCount: number}>} paise
     */
    function positions(journal) {
        const banks = new Map(journal.banks.map((bank) =>
            [bank, { paid: 0n, received: 0n, paidCount: 0, receivedCount: 0 }]));
        for (const payment of journal.opened) {
            if (!payment.settled) continue;
            const amount = BigInt(payment.request.amount);
            const payer = banks.get(payment.payerBank);
            const payee = banks.get(payment.payeeBank);
            if (payer) {
                payer.paid += amount;
                payer.paidCount += 1;
            }
            if (payee) {
                payee.received += amount;
                payee.receivedCount += 1;
            }
        }
        return banks;
    }

    /** Reconciliation items, in opening order. */
    function items(journal) {
        return journal.opened.filter((payment) => payment.isItem);
    }

    /** How many opened payments have each outcome, with the sums: by outcome and code, open ones by stage. */
    function outcomes(journal) {
        const counts = new Map();
        for (const payment of journal.opened) {
            const { outcome, stage } = payment.standing;
            const word = outcome?.word ?? "OPEN";
            const code = outcome ? outcome.code : stage;
            const key = `${word} ${code}`;
            const row = counts.get(key) ?? { word, code, count: 0, sum: 0n };
            row.count += 1;
            row.sum += BigInt(payment.request.amount);
            counts.set(key, row);
        }
        const order = ["SUCCESS", "DEEMED", "FAILURE", "OPEN"];
        return [...counts.values()].sort((one, other) =>
            order.indexOf(one.word) - order.indexOf(other.word) || other.count - one.count);
    }

    const line = (row, id, bank, detail, amount, code = "") => ({ row, id, bank, detail, amount, code });

    /** The lines that the entries come to. */
    function* expected(journal) {
        for (const { id, request, standing: { outcome } } of journal.opened) {
            if (outcome) yield line("OUTCOME", id, "", outcome.word, BigInt(request.amount), outcome.code);
        }
        for (const payment of journal.opened) {
            if (!payment.settled) continue;
            const amount = BigInt(payment.request.amount);
            yield line("SETTLE", payment.id, payment.payerBank, "PAID", amount);
            yield line("SETTLE", payment.id, payment.payeeBank, "RECEIVED", amount);
        }
        for (const [bank, { paid, received }] of positions(journal)) {
            yield line("NET", "", bank, "", received - paid);
        }
        for (const payment of items(journal)) {
            yield line("RECON", payment.id, payment.payeeBank, "", BigInt(payment.request.amount));
        }
        for (const { number, bank, balance } of journal.accounts.values()) {
            yield line("BALANCE", number, bank, "", balance);
        }
        yield line("FLIGHT", "", "", "", journal.flight);
    }

    /** What a line is about; two lines of a report never have one key. */
    const keyOf = ({ row, id, bank, detail }) =>
        `${row},${id},${bank},${row === "OUTCOME" ? "" : detail}`;

    /** What a line says about it, for people. */
    const tell = ({ row, detail, amount, code }) =>
        row === "OUTCOME" ? [detail, code, writeSum(amount)].filter(Boolean).join(" ") : writeSum(amount);

    const title = ({ row, id, bank, detail }) =>
        [row, id, bank, row === "OUTCOME" ? "" : detail].filter(Boolean).join(" ");

    /**
     * Compares the report with the entries.
     * @param {boolean} whole   whether the report was read to its end
     * @returns {{compared: number, differences: {line: ?number, what: string, report: string,
     *   entries: string}[]}}    `line` is null where the report has no line
     */
    function compare(journal, whole) {
        const wanted = new Map();
        const differences = [];
        for (const want of expected(journal)) wanted.set(keyOf(want), want);
        for (const said of journal.report) {
            const key = keyOf(said);
            const want = wanted.get(key);
            wanted.delete(key);
            const same = want && want.amount === said.amount && want.code === said.code && want.detail === said.detail;
            if (!same) {
                differences.push({ line: said.line, what: title(said), report: tell(said), entries: want ? tell(want) : "no such line" });
            }
        }
        if (whole) {
            for (const want of wanted.values()) {
                differences.push({ line: null, what: title(want), report: "no such line", entries: tell(want) });
            }
        }
        return { compared: journal.report.length, differences };
    }

    /** Gives each payment the report's lines on it. */
    function attach(journal) {
        for (const said of journal.report) {
            if (said.row !== "BALANCE" && said.id) journal.payments.get(said.id)?.report.push(said);
        }
    }

    return { positions, items, outcomes, compare, attach };
})();
