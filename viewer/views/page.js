// The page: takes a journal in, reads it in pieces while a bar tells how far it is, and goes from view
// to view by the address behind `#`.
"use strict";

Viewer.page = (() => {
    const { el, byId } = Viewer.dom;
    const { count } = Viewer.marks;
    const { JournalReader } = Viewer.reader;
    const { Journal } = Viewer.journal;
    const agreement = Viewer.agreement;

    /** Bytes that are read before the page gets its turn again. */
    const PIECE = 1 << 20;
    const VIEWS = ["payments", "payment", "whole"];

    /** Lets the page draw and take input. */
    const turn = () => new Promise((go) => {
        const channel = new MessageChannel();
        channel.port1.onmessage = () => {
            channel.port1.close();
            go();
        };
        channel.port2.postMessage(null);
    });

    const size = (bytes) => (bytes < 1e6 ? `${(bytes / 1e3).toFixed(1)} kB` : `${(bytes / 1e6).toFixed(1)} MB`);

    /** Goes to a payment. */
    const goTo = ({ id }) => { location.hash = `payment=${id}`; };

    class Page {
        /** Counts the readings, so that a new one ends the one before. */
        #reading = 0;
        #stopped = false;
        #journal = null;
        #agreement = null;
        #payment = null;
        #wholeIsShown = false;

        constructor() {
            this.view = new Viewer.payment.PaymentView(byId("payment"), (payment, by) => this.#beside(payment, by), goTo);
            byId("pick").addEventListener("click", () => byId("file").click());
            byId("file").addEventListener("change", (event) => this.#picked(event.target));
            byId("stop").addEventListener("click", () => { this.#stopped = true; });
            addEventListener("hashchange", () => this.#route());
            addEventListener("resize", () => this.table?.draw());
            byId("payment").addEventListener("keydown", (event) => { if (event.key === "Escape") location.hash = "payments"; });
            addEventListener("beforeprint", () => this.#print(true));
            addEventListener("afterprint", () => this.#print(false));
            this.#paste();
            this.#drop();
        }

        /** Shows the examples, each with its text at hand. */
        offer(examples) {
            for (const { name, title, text } of examples) {
                const read = () => this.read(new Blob([text]), name);
                byId("examples").append(el("li", {}, el("button", { type: "button", click: read }, name), el("span", {}, title)));
                byId("example").append(el("option", { value: name }, name));
            }
            byId("example").addEventListener("change", (event) => {
                const chosen = examples.find(({ name }) => name === event.target.value);
                event.target.value = "";
                if (chosen) this.read(new Blob([chosen.text]), chosen.name);
            });
        }

        #picked(input) {
            if (input.files.length > 0) this.read(input.files[0], input.files[0].name);
            input.value = "";
        }

        #paste() {
            const box = byId("paste-box");
            byId("paste").addEventListener("click", () => {
                box.returnValue = "";
                box.showModal();
            });
            box.addEventListener("close", () => {
                // Blank lines round a pasted text are the hand's, not the journal's.
                const text = byId("paste-text").value.replace(/^\s*\n/, "").trimEnd();
                if (box.returnValue === "show" && text !== "") this.read(new Blob([`${text}\n`]), "pasted text");
            });
        }

        #drop() {
            const over = byId("over");
            const isFile = (event) => [...event.dataTransfer.types].includes("Files");
            addEventListener("dragover", (event) => {
                if (!isFile(event)) return;
                event.preventDefault();
                over.hidden = false;
            });
            addEventListener("dragleave", (event) => { if (!event.relatedTarget) over.hidden = true; });
            addEventListener("drop", (event) => {
                over.hidden = true;
                if (!isFile(event)) return;
                event.preventDefault();
                const [file] = event.dataTransfer.files;
                if (file) this.read(file, file.name);
            });
        }

        /**
         * Reads a journal and shows it.
         * @param {Blob} blob
         * @param {string} name   what it is called on the page
         */
        async read(blob, name) {
            this.#reading += 1;
            const mine = this.#reading;
            this.#stopped = false;
            this.#journal = null;
            this.#show("reading");
            byId("reading-what").textContent = `Reading ${name}`;
            try {
                await this.#read(blob, name, () => mine === this.#reading);
            } catch (fault) {
                if (mine === this.#reading) this.#unreadable(name, fault);
            }
        }

        /** Reads it, as long as no other reading has begun. */
        async #read(blob, name, isMine) {
            const began = performance.now();
            const journal = new Journal();
            const reader = new JournalReader((item) => journal.take(item));
            await this.#pieces(blob, reader, () => isMine() && !this.#stopped);
            if (!isMine()) return;
            if (!this.#stopped) reader.end();
            journal.finish();
            const took = (performance.now() - began) / 1000;
            byId("journal-name").textContent = name;
            byId("journal-size").textContent = `${count(reader.lines)} lines, ${size(blob.size)}` +
                (took > 0.5 ? `, read in ${took.toFixed(1)} s` : "") + ". Moments are at +05:30, sums in rupees.";
            this.#loaded(journal, reader);
        }

        async #pieces(blob, reader, goesOn) {
            for (let from = 0; from < blob.size && !reader.fault && goesOn(); from += PIECE) {
                this.#tell(from, blob.size, reader.lines);
                reader.feed(new Uint8Array(await blob.slice(from, from + PIECE).arrayBuffer()));
                await turn();
            }
        }

        #tell(done, all, lines) {
            byId("progress").value = done / all;
            byId("reading-far").textContent = `${size(done)} of ${size(all)}, ${count(lines)} lines`;
        }

        #unreadable(name, fault) {
            this.#show("welcome");
            document.querySelector("#welcome > .banner")?.remove();
            byId("welcome").prepend(el("p", { class: "banner bad", role: "alert" }, `${name} can’t be read: ${fault.message}`));
        }

        #loaded(journal, reader) {
            const whole = !reader.fault && !this.#stopped && journal.hasReport;
            this.#journal = journal;
            this.#agreement = agreement.compare(journal, whole);
            agreement.attach(journal);
            this.#wholeIsShown = false;
            byId("banners").replaceChildren(...this.#banners(reader));
            this.#show("journal");
            this.table = new Viewer.payments.PaymentsView(byId("payments"), journal, goTo);
            const only = journal.payments.size === 1 ? [...journal.payments.values()][0] : null;
            this.#payment = only;
            byId("tab-payments").textContent = `Payments (${count(journal.payments.size)})`;
            history.replaceState(null, "", only ? `#payment=${only.id}` : journal.payments.size > 0 ? "#payments" : "#whole");
            this.#route();
        }

        /** What has to be said of a journal before anything else. */
        #banners(reader) {
            const journal = this.#journal;
            const banner = (kind, ...content) => el("div", { class: `banner ${kind}`, role: kind === "bad" ? "alert" : "note" }, ...content);
            const found = [];
            if (reader.fault) found.push(banner("bad", ...this.#faultOf(reader.fault)));
            if (this.#stopped) found.push(banner("warn", "The reading was stopped. What stands before that is shown."));
            if (!journal.closed && journal.isOpen) found.push(banner("warn", "The journal has no Close: payments are shown as they stand."));
            if (!journal.hasReport && journal.isOpen) found.push(banner("warn", "The journal has no report: all sums are those of its entries."));
            for (const { line, said } of journal.remarks.slice(0, 5)) found.push(banner("warn", `Line ${count(line)}: ${said}. Sums may not hold.`));
            if (journal.remarks.length > 5) found.push(banner("warn", `${count(journal.remarks.length - 5)} more such lines.`));
            if (journal.hasReport) found.push(this.#agreementBanner(banner));
            return found;
        }

        #faultOf(fault) {
            const where = fault.word > 0 ? `Line ${count(fault.line)}, word ${fault.word}` : `Line ${count(fault.line)}`;
            return [
                el("p", {}, el("b", {}, `${where} isn’t in the grammar (${fault.why}): `), `${fault.message}. What stands before it is shown.`),
                fault.text !== "" && el("code", { class: "line" }, fault.text.slice(0, 2000)),
            ];
        }

        #agreementBanner(banner) {
            const { compared, differences } = this.#agreement;
            if (differences.length === 0) return banner("good", `✓ The report’s ${count(compared)} lines are what the entries come to.`);
            return banner("bad", el("p", {},
                el("b", {}, `The report and the entries differ in ${count(differences.length)} ${differences.length === 1 ? "line" : "lines"}. `),
                "First: ", `${differences[0].what}: the report says ${differences[0].report}, the entries come to ${differences[0].entries}. `,
                el("a", { href: "#whole" }, "See all")));
        }

        /** Shows one of the page's three states: welcome, reading, journal. */
        #show(state) {
            for (const id of ["welcome", "reading", "journal"]) byId(id).hidden = id !== state;
        }

        #route() {
            if (!this.#journal) return;
            const [view, id] = location.hash.slice(1).split("=");
            const chosen = view === "payment" && id ? this.#journal.payments.get(id) ?? null : null;
            if (chosen) this.#payment = chosen;
            const shown = view === "payment" && !this.#payment ? "payments" : VIEWS.includes(view) ? view : "payments";
            for (const name of VIEWS) {
                byId(name).hidden = name !== shown;
                const tab = byId(`tab-${name}`);
                if (name === shown) tab.setAttribute("aria-current", "page");
                else tab.removeAttribute("aria-current");
            }
            scrollTo(0, 0);
            this.#draw(shown);
        }

        #draw(shown) {
            const tab = byId("tab-payment");
            tab.hidden = !this.#payment;
            if (this.#payment) {
                tab.textContent = `Payment ${this.#payment.id}`;
                tab.href = `#payment=${this.#payment.id}`;
            }
            if (shown === "payment") {
                this.view.show(this.#payment);
                this.view.focus();
            }
            if (shown === "payments") this.table.show();
            if (shown === "whole" && !this.#wholeIsShown) {
                Viewer.whole.showWhole(byId("whole"), this.#journal, this.#agreement);
                this.#wholeIsShown = true;
            }
        }

        /** The payment before or after one, in the table's order. */
        #beside(payment, by) {
            const { shown } = this.table;
            const at = shown.indexOf(payment);
            return at < 0 ? null : shown[at + by] ?? null;
        }

        #print(begins) {
            if (!this.#journal) return;
            if (!byId("payments").hidden) begins ? this.table.print() : this.table.printed();
            if (!begins) return;
            if (!byId("payment").hidden) this.view.openAll(true);
            for (const details of document.querySelectorAll("details")) details.open = true;
        }
    }

    return { Page };
})();
