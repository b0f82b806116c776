// The whole journal: outcomes counted, settlement and nets of banks, balances, reconciliation items,
// money in flight along the history, and where the report says something else than the entries.
"use strict";

Viewer.whole = (() => {
    const { el, svg, table, firstOf } = Viewer.dom;
    const { badge, chip, count, moment, STAGES } = Viewer.marks;
    const { writeSum } = Viewer.grammar;
    const { positions, items, outcomes } = Viewer.agreement;

    const MOST = 100;
    const COLUMNS = 1000;
    const HIGH = 200;
    const number = (title) => ({ title, number: true });
    const link = (id) => el("a", { href: `#payment=${id}` }, id);

    function card(title, value, more) {
        return el("div", { class: "card" }, el("dt", {}, title), el("dd", {}, value), more && el("dd", { class: "quiet" }, more));
    }

    function cards(journal) {
        const { counts } = journal;
        const found = items(journal);
        const sum = found.reduce((all, payment) => all + BigInt(payment.request.amount), 0n);
        const unopened = journal.payments.size - journal.opened.length;
        return el("dl", { class: "cards" },
            card("Entries", count(journal.entries.length), journal.closed ? `closed at entry ${count(journal.closed.place)}` : "no Close"),
            card("Messages", count(journal.messages.length), `${count(counts.delivered)} deliveries`),
            card("Payments opened", count(journal.opened.length), unopened > 0 && `${count(unopened)} names never opened`),
            card("Lost", count(counts.lost)), card("Repeated", count(counts.repeated)),
            card("Late", count(counts.late)), card("Refused", count(counts.refused)),
            card("Items", count(found.length), found.length > 0 && writeSum(sum)),
            card("In flight", writeSum(journal.flight)));
    }

    function outcomeTable(journal) {
        const all = journal.opened.length;
        if (all === 0) return el("p", {}, "No payment was opened.");
        const label = ({ word, code }) => (word === "OPEN" ? `open: ${STAGES[code]}` : [word, code].filter(Boolean).join(" "));
        return table("Outcomes", [{ title: "Outcome" }, number("Payments"), number("Sum"), { title: "Share" }],
            outcomes(journal).map((row) => [
                badge({ kind: row.word, label: label(row) }), count(row.count), writeSum(row.sum), share(row.count / all),
            ]));
    }

    function share(part) {
        const bar = el("span", { class: "bar-fill" });
        bar.style.width = `${part * 100}%`;
        return el("span", { class: "share" }, el("span", { class: "bar" }, bar), `${(part * 100).toFixed(1)} %`);
    }

    /** The report's sums of one kind of line, by what `keyOf` makes of a line. */
    function reported(journal, row, keyOf) {
        return new Map(journal.report.filter((line) => line.row === row).map((line) => [keyOf(line), writeSum(line.amount)]));
    }

    /** What the report says, told apart where the entries come to another sum. */
    function beside(report, sum) {
        if (report === undefined) return "–";
        return report === writeSum(sum) ? report : chip("refused", `≠ ${report}`);
    }

    function settlement(journal) {
        const nets = reported(journal, "NET", (line) => line.bank);
        const rows = [...positions(journal)].map(([bank, row]) => [
            bank, count(row.paidCount), writeSum(row.paid), count(row.receivedCount), writeSum(row.received),
            writeSum(row.received - row.paid), beside(nets.get(bank), row.received - row.paid),
        ]);
        return table("Settlement and nets", [{ title: "Bank" }, number("Paid items"), number("Paid"), number("Received items"),
            number("Received"), number("Net"), number("Net in the report")], rows);
    }

    function balances(journal) {
        const ends = reported(journal, "BALANCE", (line) => `${line.bank}/${line.id}`);
        const rows = [...journal.accounts.values()].map((account) => {
            const flags = [account.noDebit && "takes no debits", account.noCredit && "takes no credits"];
            const change = account.balance - BigInt(account.opening);
            return [account.account, writeSum(account.opening), `${change > 0n ? "+" : ""}${writeSum(change)}`,
                writeSum(account.balance), beside(ends.get(account.account), account.balance), flags.filter(Boolean).join(", ")];
        });
        return firstOf(rows, MOST, (some) => table("Balances", [{ title: "Account" }, number("At the start"), number("Change"),
            number("At the end"), number("In the report"), { title: "Flags" }], some));
    }

    function itemTable(journal) {
        const rows = items(journal).map((payment) =>
            [link(payment.id), payment.payeeBank, writeSum(payment.request.amount), payment.payerBank]);
        if (rows.length === 0) return el("p", {}, "No reconciliation items.");
        return firstOf(rows, MOST, (some) => table("Reconciliation items",
            [{ title: "Payment" }, { title: "At the bank" }, number("Amount"), { title: "Paid by" }], some));
    }

    /** Points of the flight as a path: exact where they are few, else least and greatest of each column. */
    function pathOf(points, last, most) {
        const x = (place) => (place / last) * COLUMNS;
        const y = (amount) => HIGH - (amount / most) * HIGH;
        if (points.length <= 2 * COLUMNS) {
            return points.map((point) => `H${x(point.place)}V${y(Number(point.amount))}`).join("");
        }
        const parts = [];
        let at = 0;
        for (let column = 1; column <= COLUMNS && at < points.length; column += 1) {
            let least = Infinity;
            let greatest = -Infinity;
            let end = 0;
            for (; at < points.length && x(points[at].place) <= column; at += 1) {
                end = Number(points[at].amount);
                least = Math.min(least, end);
                greatest = Math.max(greatest, end);
            }
            if (greatest >= 0) parts.push(`H${column}V${y(greatest)}V${y(least)}V${y(end)}`);
        }
        return parts.join("");
    }

    function flight(journal) {
        const last = Math.max(1, journal.entries.length);
        const top = journal.flights.reduce((best, point) => (point.amount > best.amount ? point : best));
        const most = Math.max(1, Number(top.amount));
        const told = top.amount > 0n
            ? `Most: ${writeSum(top.amount)} after entry ${count(top.place)}. At the end: ${writeSum(journal.flight)}.`
            : "No money was in flight after any entry.";
        const line = `M0 ${HIGH}${pathOf(journal.flights, last, most)}H${COLUMNS}`;
        return el("figure", { class: "flight" },
            el("figcaption", {}, "Money in flight along the history"),
            el("div", { class: "plot" },
                el("span", { class: "y-most" }, writeSum(BigInt(most))), el("span", { class: "y-none" }, "0.00"),
                svg("svg", { viewBox: `0 0 ${COLUMNS} ${HIGH}`, preserveAspectRatio: "none", role: "img", "aria-label": told },
                    svg("path", { class: "area", d: `${line}V${HIGH}Z` }), svg("path", { class: "line", d: line }))),
            el("div", { class: "x-axis" }, el("span", {}, "entry 1"), el("span", {}, `entry ${count(last)}`)),
            el("p", {}, told));
    }

    function differences({ differences: all }) {
        if (all.length === 0) return null;
        const rows = all.map((one) => [one.what, one.report, one.entries, one.line === null ? "–" : count(one.line)]);
        return firstOf(rows, MOST, (some) => table("Where the report and the entries differ",
            [{ title: "What" }, { title: "The report says" }, { title: "The entries come to" }, number("Line")], some));
    }

    /** Lines that belong to no payment. */
    function apart(journal) {
        const lines = [...journal.apart, ...journal.unheard].sort((one, other) => one.line - other.line);
        if (lines.length === 0) return null;
        const shown = lines.map((item) => [count(item.line), el("code", { class: "line" }, item.text)]);
        return firstOf(shown, MOST, (some) => table("Lines about no payment", [number("Line"), { title: "Text" }], some));
    }

    function setup(journal) {
        const start = journal.start === null ? "" : moment(journal.start);
        const rows = [...journal.addresses.values()].map(({ address, account, psp, policy }) => [address, account, psp, policy]);
        return el("details", {}, el("summary", {}, "The setup"),
            el("p", {}, `Begins at ${start}. Banks: ${journal.banks.join(", ") || "none"}. PSPs: ${journal.psps.join(", ") || "none"}.`),
            rows.length > 0 && firstOf(rows, MOST, (some) => table("Addresses",
                [{ title: "Address" }, { title: "Account" }, { title: "PSP" }, { title: "Answers" }], some)));
    }

    /** Shows the whole of a journal, with what comparing it with its report gave. */
    function showWhole(root, journal, agreement) {
        const parts = [cards(journal), differences(agreement), outcomeTable(journal), settlement(journal),
            flight(journal), itemTable(journal), balances(journal), apart(journal), setup(journal)];
        root.replaceChildren(...parts.filter(Boolean));
    }

    return { showWhole };
})();
