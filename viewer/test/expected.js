// What each journal has to show, written by hand from the rules of the switch and the journal's
// grammar, and not from what the page or the program prints. A step is: entry, moment of the day in
// India, who to whom, what, the reply; then how the payment stands after it, and its marks.
"use strict";

const lines = (text) => text.trim().split("\n").map((line) => line.trim());

/** A payment of 30.00 from ann to bob, up to the bank's answer to the debit. */
const BEGUN = `
    E 1 05:30:00 alpha>SWITCH ReqPay PAY 30.00 = OK : Asking
    E 2 05:30:00 SWITCH>beta M1 REQAUTH 30.00 = TOLD : Asking
    E 3 05:30:00 beta>SWITCH M2 RESPAUTH 30.00 YES = OK : Debiting
    E 4 05:30:00 SWITCH>AAAA M3 DEBIT 30.00 = POSTED : Debiting`;

/** The same, until the credit is on its way. */
const CREDITING = `${BEGUN}
    E 5 05:30:00 AAAA>SWITCH M4 ANSWER DEBIT POSTED = OK : Crediting`;

const NETS_OF_30 = ["AAAA | 1 | 30.00 | 0 | 0.00 | -30.00 | -30.00", "BBBB | 0 | 0.00 | 1 | 30.00 | 30.00 | 30.00"];
const NO_NETS = ["AAAA | 0 | 0.00 | 0 | 0.00 | 0.00 | 0.00", "BBBB | 0 | 0.00 | 0 | 0.00 | 0.00 | 0.00"];
const MOVED_30 = ["AAAA/1 | 100.00 | -30.00 | 70.00 | 70.00 |", "BBBB/1 | 5.00 | +30.00 | 35.00 | 35.00 |"];
const MOVED_NOTHING = ["AAAA/1 | 100.00 | 0.00 | 100.00 | 100.00 |", "BBBB/1 | 5.00 | 0.00 | 5.00 | 5.00 |"];
const NO_FLIGHT = "No money was in flight after any entry.";

/** Journals with one payment each. `report` are the report's lines on it, `agrees` the lines in all. */
const PAYMENTS = {
    one_payment: {
        row: ["T1", "PAY", "ann@alpha → bob@beta", "30.00", "✓SUCCESS", "2024-01-01 05:30:00", ""],
        marks: ["✓SUCCESS"],
        steps: lines(`${CREDITING}
            E 6 05:30:00 SWITCH>BBBB M5 CREDIT 30.00 = POSTED : Crediting
            E 7 05:30:00 BBBB>SWITCH M6 ANSWER CREDIT POSTED = OK : SUCCESS
            E 8 05:30:00 SWITCH>alpha M7 RESPPAY SUCCESS = TOLD : SUCCESS
            E 9 05:30:00 SWITCH>beta M8 CONFIRM SUCCESS = TOLD : SUCCESS
            E 10 05:30:00 beta>SWITCH M9 CONFIRMED = OK : SUCCESS`),
        sends: lines(`E 1: M1 REQAUTH → beta
            E 2: M2 RESPAUTH → SWITCH
            E 3: M3 DEBIT → AAAA
            E 4: M4 ANSWER → SWITCH
            E 5: M5 CREDIT → BBBB
            E 6: M6 ANSWER → SWITCH
            E 7: M7 RESPPAY → alpha
            E 7: M8 CONFIRM → beta
            E 9: M9 CONFIRMED → SWITCH`),
        report: ["OUTCOME,T1,,SUCCESS,30.00,", "SETTLE,T1,AAAA,PAID,30.00,", "SETTLE,T1,BBBB,RECEIVED,30.00,"],
        agrees: 8, nets: NETS_OF_30, balances: MOVED_30, items: null,
        flight: "Most: 30.00 after entry 4. At the end: 0.00.",
        cards: { Entries: "11", Messages: "9", Lost: "0", Repeated: "0", Late: "0", Refused: "0", Items: "0", "In flight": "0.00" },
    },
    payment_repeated: {
        row: ["T1", "PAY", "ann@alpha → bob@beta", "30.00", "✓SUCCESS", "2024-01-01 05:30:00", "5 repeated 1 refused"],
        marks: ["✓SUCCESS", "5 repeated", "1 refused"],
        steps: lines(`
            E 1 05:30:00 alpha>SWITCH ReqPay PAY 30.00 = OK : Asking
            E 2 05:30:00 alpha>SWITCH ReqPay PAY 30.00 = OK : Asking [» says it again]
            E 3 05:30:00 SWITCH>beta M1 REQAUTH 30.00 = TOLD : Asking
            E 4 05:30:00 beta>SWITCH M2 RESPAUTH 30.00 YES = OK : Debiting
            E 5 05:30:00 SWITCH>AAAA M3 DEBIT 30.00 = POSTED : Debiting
            E 6 05:30:00 SWITCH>AAAA M3 DEBIT 30.00 = POSTED : Debiting [» repeated, delivery 2]
            E 7 05:30:00 SWITCH>AAAA M3 DEBIT 30.00 = POSTED : Debiting [» repeated, delivery 3]
            E 8 05:30:00 AAAA>SWITCH M4 ANSWER DEBIT POSTED = OK : Crediting
            E 9 05:30:00 AAAA>SWITCH M5 ANSWER DEBIT POSTED = OK : Crediting [» says it again]
            E 10 05:30:00 AAAA>SWITCH M6 ANSWER DEBIT POSTED = OK : Crediting [» says it again]
            E 11 05:30:00 SWITCH>BBBB M7 CREDIT 30.00 = POSTED : Crediting
            E 12 05:30:00 BBBB>SWITCH M8 ANSWER CREDIT POSTED = OK : SUCCESS
            E 13 05:30:00 SWITCH>alpha M9 RESPPAY SUCCESS = TOLD : SUCCESS
            E 14 05:30:00 SWITCH>beta M10 CONFIRM SUCCESS = TOLD : SUCCESS
            E 15 05:30:00 beta>SWITCH M11 CONFIRMED = OK : SUCCESS
            E 16 05:30:00 alpha>SWITCH ReqPay PAY 31.00 = NO DUP : SUCCESS [⊘ NO DUP]`),
        shapes: { again: "E 2 E 6 E 7 E 9 E 10", refused: "E 16", lost: "", late: "", waiting: "" },
        report: ["OUTCOME,T1,,SUCCESS,30.00,", "SETTLE,T1,AAAA,PAID,30.00,", "SETTLE,T1,BBBB,RECEIVED,30.00,"],
        agrees: 8, nets: NETS_OF_30, balances: MOVED_30, items: null,
        flight: "Most: 30.00 after entry 5. At the end: 0.00.",
        cards: { Entries: "17", Messages: "11", Repeated: "5", Refused: "1" },
    },
    credit_deemed: {
        row: ["T1", "PAY", "ann@alpha → bob@beta", "30.00", "≈DEEMED", "2024-01-01 05:30:00 – 05:30:30",
            "◆ item ▲ in flight 1 lost 1 late 1 refused"],
        marks: ["≈DEEMED", "◆ item", "▲ in flight", "1 lost", "1 late", "1 refused"],
        steps: lines(`${CREDITING}
            E 6 05:30:00 SWITCH>BBBB M5 CREDIT 30.00 = DECLINED NOCREDIT : Crediting [⊘ DECLINED NOCREDIT]
            E 7 05:30:00 BBBB>SWITCH M6 ANSWER CREDIT DECLINED NOCREDIT = LOST : Crediting [✕ lost]
            E 8 05:30:30 LATE = DONE : DEEMED [late]
            E 9 05:30:30 alpha>SWITCH ReqChkTxn = STATUS DEEMED : DEEMED
            E 10 05:30:30 SWITCH>alpha M7 RESPPAY DEEMED = TOLD : DEEMED
            E 11 05:30:30 SWITCH>beta M8 CONFIRM DEEMED = TOLD : DEEMED
            E 12 05:30:30 beta>SWITCH M9 CONFIRMED = OK : DEEMED`),
        shapes: { again: "", refused: "E 6", lost: "E 7", late: "E 8", waiting: "" },
        due: ["E 1 due 05:30:30", "E 3 due 05:30:30", "E 4 due 05:30:30, 30.00 in flight", "E 8 due 05:31:00, 30.00 in flight", "E 12 30.00 in flight, confirmed"],
        report: ["OUTCOME,T1,,DEEMED,30.00,", "SETTLE,T1,AAAA,PAID,30.00,", "SETTLE,T1,BBBB,RECEIVED,30.00,", "RECON,T1,BBBB,,30.00,"],
        agrees: 9, nets: NETS_OF_30, items: ["T1 | BBBB | 30.00 | AAAA"],
        balances: ["AAAA/1 | 100.00 | -30.00 | 70.00 | 70.00 |", "BBBB/1 | 5.00 | 0.00 | 5.00 | 5.00 | takes no credits"],
        flight: "Most: 30.00 after entry 4. At the end: 30.00.",
        cards: { Entries: "13", Messages: "9", Lost: "1", Late: "1", Refused: "1", Items: "1", "In flight": "30.00" },
    },
    debit_reversed: {
        row: ["T1", "PAY", "ann@alpha → bob@beta", "30.00", "✕FAILURE DEBITLATE", "2024-01-01 05:30:00 – 05:30:30", "1 lost 1 late"],
        marks: ["✕FAILURE DEBITLATE", "1 lost", "1 late"],
        steps: lines(`${BEGUN}
            E 5 05:30:00 AAAA>SWITCH M4 ANSWER DEBIT POSTED = LOST : Debiting [✕ lost]
            E 6 05:30:30 LATE = DONE : Reversing (DEBITLATE) [late]
            E 7 05:30:30 SWITCH>AAAA M5 REVERSAL 30.00 = POSTED : Reversing (DEBITLATE)
            E 8 05:30:30 AAAA>SWITCH M6 ANSWER REVERSAL POSTED = OK : FAILURE DEBITLATE
            E 9 05:30:30 SWITCH>alpha M7 RESPPAY FAILURE DEBITLATE = TOLD : FAILURE DEBITLATE
            E 10 05:30:30 SWITCH>beta M8 CONFIRM FAILURE DEBITLATE = TOLD : FAILURE DEBITLATE
            E 11 05:30:30 beta>SWITCH M9 CONFIRMED = OK : FAILURE DEBITLATE`),
        report: ["OUTCOME,T1,,FAILURE,30.00,DEBITLATE"],
        agrees: 6, nets: NO_NETS, balances: MOVED_NOTHING, items: null,
        flight: "Most: 30.00 after entry 4. At the end: 0.00.",
        cards: { Entries: "12", Lost: "1", Late: "1", "In flight": "0.00" },
    },
    collect_approved: {
        row: ["C1", "COLLECT", "ann@alpha → bob@beta", "30.00", "✓SUCCESS", "2024-01-01 05:30:00 – 05:30:59", ""],
        marks: ["✓SUCCESS"],
        steps: lines(`
            E 1 05:30:00 beta>SWITCH ReqPay COLLECT 30.00 = OK : Asking
            E 2 05:30:00 SWITCH>alpha M1 REQAUTH 30.00 = TOLD : Asking
            E 3 05:30:59 alpha>SWITCH RespAuthDetails 30.00 SUCCESS = OK : Debiting
            E 4 05:30:59 SWITCH>AAAA M2 DEBIT 30.00 = POSTED : Debiting
            E 5 05:30:59 AAAA>SWITCH M3 ANSWER DEBIT POSTED = OK : Crediting
            E 6 05:30:59 SWITCH>BBBB M4 CREDIT 30.00 = POSTED : Crediting
            E 7 05:30:59 BBBB>SWITCH M5 ANSWER CREDIT POSTED = OK : SUCCESS
            E 8 05:30:59 SWITCH>beta M6 RESPPAY SUCCESS = TOLD : SUCCESS
            E 9 05:30:59 SWITCH>alpha M7 CONFIRM SUCCESS = TOLD : SUCCESS
            E 10 05:30:59 alpha>SWITCH M8 CONFIRMED = OK : SUCCESS`),
        facts: ["Asks, is asked: beta, alpha", "May take: 1 minute"],
        due: ["E 1 due 05:31:00", "E 3 due 05:31:29", "E 6 due 05:31:29"],
        report: ["OUTCOME,C1,,SUCCESS,30.00,", "SETTLE,C1,AAAA,PAID,30.00,", "SETTLE,C1,BBBB,RECEIVED,30.00,"],
        agrees: 8, nets: NETS_OF_30, balances: MOVED_30, items: null,
        flight: "Most: 30.00 after entry 4. At the end: 0.00.",
        cards: { Entries: "11", Messages: "8" },
    },
    collect_too_late: {
        row: ["C1", "COLLECT", "ann@alpha → bob@beta", "30.00", "✕FAILURE EXPIRED", "2024-01-01 05:30:00 – 05:31:00", "1 late 1 refused"],
        marks: ["✕FAILURE EXPIRED", "1 late", "1 refused"],
        steps: lines(`
            E 1 05:30:00 beta>SWITCH ReqPay COLLECT 30.00 = OK : Asking
            E 2 05:30:00 SWITCH>alpha M1 REQAUTH 30.00 = TOLD : Asking
            E 3 05:31:00 LATE = DONE : FAILURE EXPIRED [late]
            E 4 05:31:00 alpha>SWITCH RespAuthDetails 30.00 SUCCESS = NO EXPIRED : FAILURE EXPIRED [⊘ NO EXPIRED]
            E 5 05:31:00 SWITCH>beta M2 RESPPAY FAILURE EXPIRED = TOLD : FAILURE EXPIRED
            E 6 05:31:00 SWITCH>alpha M3 CONFIRM FAILURE EXPIRED = TOLD : FAILURE EXPIRED
            E 7 05:31:00 alpha>SWITCH M4 CONFIRMED = OK : FAILURE EXPIRED`),
        report: ["OUTCOME,C1,,FAILURE,30.00,EXPIRED"],
        agrees: 6, nets: NO_NETS, balances: MOVED_NOTHING, items: null, flight: NO_FLIGHT,
        cards: { Entries: "8", Messages: "4", Late: "1", Refused: "1" },
    },
    late_answer: {
        // The credit's answer comes after the Late: refused, but the money has moved, so no item.
        row: ["T1", "PAY", "ann@alpha → bob@beta", "30.00", "≈DEEMED", "2024-01-01 05:30:00 – 05:30:30", "1 lost 1 late 1 refused"],
        marks: ["≈DEEMED", "1 lost", "1 late", "1 refused"],
        steps: lines(`${CREDITING}
            E 6 05:30:00 SWITCH>BBBB M5 CREDIT 30.00 = POSTED : Crediting
            E 7 05:30:00 BBBB>SWITCH M6 ANSWER CREDIT POSTED = LOST : Crediting [✕ lost]
            E 8 05:30:30 LATE = DONE : DEEMED [late]
            E 9 05:30:30 BBBB>SWITCH M6 ANSWER CREDIT POSTED = NO CREDITLATE : DEEMED [⊘ NO CREDITLATE]
            E 10 05:30:30 alpha>SWITCH ReqChkTxn = STATUS DEEMED : DEEMED
            M 7 SWITCH>alpha M7 RESPPAY DEEMED [○ never delivered]
            M 8 SWITCH>beta M8 CONFIRM DEEMED [○ never delivered]`),
        report: ["OUTCOME,T1,,DEEMED,30.00,", "SETTLE,T1,AAAA,PAID,30.00,", "SETTLE,T1,BBBB,RECEIVED,30.00,"],
        agrees: 8, nets: NETS_OF_30, balances: MOVED_30, items: null,
        flight: "Most: 30.00 after entry 4. At the end: 0.00.",
        cards: { Entries: "11", Items: "0", "In flight": "0.00" },
    },
    credit_lost: {
        row: ["T1", "PAY", "ann@alpha → bob@beta", "30.00", "≈DEEMED", "2024-01-01 05:30:00 – 05:30:30", "◆ item ▲ in flight 1 lost 1 late"],
        marks: ["≈DEEMED", "◆ item", "▲ in flight", "1 lost", "1 late"],
        steps: lines(`${CREDITING}
            E 6 05:30:00 SWITCH>BBBB M5 CREDIT 30.00 = LOST : Crediting [✕ lost]
            E 7 05:30:30 LATE = DONE : DEEMED [late]
            M 6 SWITCH>alpha M6 RESPPAY DEEMED [○ never delivered]
            M 7 SWITCH>beta M7 CONFIRM DEEMED [○ never delivered]`),
        shapes: { again: "", refused: "", lost: "E 6", late: "E 7", waiting: "M 6 M 7" },
        report: ["OUTCOME,T1,,DEEMED,30.00,", "SETTLE,T1,AAAA,PAID,30.00,", "SETTLE,T1,BBBB,RECEIVED,30.00,", "RECON,T1,BBBB,,30.00,"],
        agrees: 9, nets: NETS_OF_30, items: ["T1 | BBBB | 30.00 | AAAA"],
        balances: ["AAAA/1 | 100.00 | -30.00 | 70.00 | 70.00 |", "BBBB/1 | 5.00 | 0.00 | 5.00 | 5.00 |"],
        flight: "Most: 30.00 after entry 4. At the end: 30.00.",
        cards: { Items: "1", "In flight": "30.00" },
    },
    reversal_first: {
        // The reversal comes to the bank before the debit: there is nothing to reverse, nor to debit then.
        row: ["T1", "PAY", "ann@alpha → bob@beta", "30.00", "✕FAILURE DEBITLATE", "2024-01-01 05:30:00 – 05:30:30", "1 late 3 refused"],
        marks: ["✕FAILURE DEBITLATE", "1 late", "3 refused"],
        steps: lines(`
            E 1 05:30:00 alpha>SWITCH ReqPay PAY 30.00 = OK : Asking
            E 2 05:30:00 SWITCH>beta M1 REQAUTH 30.00 = TOLD : Asking
            E 3 05:30:00 beta>SWITCH M2 RESPAUTH 30.00 YES = OK : Debiting
            E 4 05:30:30 LATE = DONE : Reversing (DEBITLATE) [late]
            E 5 05:30:30 SWITCH>AAAA M4 REVERSAL 30.00 = DECLINED NOTHING : Reversing (DEBITLATE) [⊘ DECLINED NOTHING]
            E 6 05:30:30 SWITCH>AAAA M3 DEBIT 30.00 = DECLINED REVERSED : Reversing (DEBITLATE) [⊘ DECLINED REVERSED]
            E 7 05:30:30 AAAA>SWITCH M5 ANSWER REVERSAL DECLINED NOTHING = OK : FAILURE DEBITLATE
            E 8 05:30:30 AAAA>SWITCH M6 ANSWER DEBIT DECLINED REVERSED = NO DEBITLATE : FAILURE DEBITLATE [⊘ NO DEBITLATE]
            M 7 SWITCH>alpha M7 RESPPAY FAILURE DEBITLATE [○ never delivered]
            M 8 SWITCH>beta M8 CONFIRM FAILURE DEBITLATE [○ never delivered]`),
        report: ["OUTCOME,T1,,FAILURE,30.00,DEBITLATE"],
        agrees: 6, nets: NO_NETS, balances: MOVED_NOTHING, items: null, flight: NO_FLIGHT,
        cards: { Entries: "9", Refused: "3" },
    },
    confirmed_again: {
        // The first CONFIRM is lost, and three more are sent; a fourth Late isn't due.
        row: ["T1", "PAY", "ann@alpha → bob@beta", "30.00", "✓SUCCESS", "2024-01-01 05:30:00 – 05:31:30", "1 lost 3 late"],
        marks: ["✓SUCCESS", "1 lost", "3 late"],
        steps: lines(`${CREDITING}
            E 6 05:30:00 SWITCH>BBBB M5 CREDIT 30.00 = POSTED : Crediting
            E 7 05:30:00 BBBB>SWITCH M6 ANSWER CREDIT POSTED = OK : SUCCESS
            E 8 05:30:00 SWITCH>beta M8 CONFIRM SUCCESS = LOST : SUCCESS [✕ lost]
            E 9 05:30:30 LATE = DONE : SUCCESS [late]
            E 10 05:31:00 LATE = DONE : SUCCESS [late]
            E 11 05:31:30 LATE = DONE : SUCCESS [late]
            M 7 SWITCH>alpha M7 RESPPAY SUCCESS [○ never delivered]
            M 9 SWITCH>beta M9 CONFIRM SUCCESS [○ never delivered]
            M 10 SWITCH>beta M10 CONFIRM SUCCESS [○ never delivered]
            M 11 SWITCH>beta M11 CONFIRM SUCCESS [○ never delivered]`),
        due: ["E 7 due 05:30:30", "E 9 due 05:31:00", "E 10 due 05:31:30", "E 11"],
        report: ["OUTCOME,T1,,SUCCESS,30.00,", "SETTLE,T1,AAAA,PAID,30.00,", "SETTLE,T1,BBBB,RECEIVED,30.00,"],
        agrees: 8, nets: NETS_OF_30, balances: MOVED_30, items: null,
        flight: "Most: 30.00 after entry 4. At the end: 0.00.",
        cards: { Entries: "12", Messages: "11", Late: "3" },
    },
    closed_crediting: {
        // The Close comes while the credit is out: deemed, and an item, since it never came to the bank.
        row: ["T1", "PAY", "ann@alpha → bob@beta", "30.00", "≈DEEMED", "2024-01-01 05:30:00", "◆ item ▲ in flight"],
        marks: ["≈DEEMED", "◆ item", "▲ in flight"],
        steps: lines(`${CREDITING}
            E 6 05:30:00 CLOSE = CLOSED : DEEMED
            M 5 SWITCH>BBBB M5 CREDIT 30.00 [○ never delivered]`),
        facts: ["Debit: POSTED, entry 4", "Credit: the order didn’t arrive"],
        report: ["OUTCOME,T1,,DEEMED,30.00,", "SETTLE,T1,AAAA,PAID,30.00,", "SETTLE,T1,BBBB,RECEIVED,30.00,", "RECON,T1,BBBB,,30.00,"],
        agrees: 9, nets: NETS_OF_30, items: ["T1 | BBBB | 30.00 | AAAA"],
        balances: ["AAAA/1 | 100.00 | -30.00 | 70.00 | 70.00 |", "BBBB/1 | 5.00 | 0.00 | 5.00 | 5.00 |"],
        flight: "Most: 30.00 after entry 4. At the end: 30.00.",
        cards: { Entries: "6", Messages: "5", Items: "1", "In flight": "30.00" },
    },
    closed_early: {
        // The Close ends the payment while its debit is out, and the debit comes back.
        row: ["T1", "PAY", "ann@alpha → bob@beta", "30.00", "✕FAILURE CLOSED", "2024-01-01 05:30:00", "1 refused"],
        marks: ["✕FAILURE CLOSED", "1 refused"],
        steps: lines(`${BEGUN}
            E 5 05:30:00 CLOSE = CLOSED : FAILURE CLOSED
            E 6 05:30:00 AAAA>SWITCH M4 ANSWER DEBIT POSTED = NO CLOSED : FAILURE CLOSED [⊘ NO CLOSED]`),
        facts: ["Debit: POSTED, entry 4", "Credit: the order didn’t arrive", "Reversal: posted by the Close"],
        report: ["OUTCOME,T1,,FAILURE,30.00,CLOSED"],
        agrees: 6, nets: NO_NETS, balances: MOVED_NOTHING, items: null,
        flight: "Most: 30.00 after entry 4. At the end: 0.00.",
        cards: { Entries: "6", Refused: "1" },
    },
};

/** A journal with every kind of line. */
const EVERYTHING = {
    // Payment, kind, parties, amount, outcome, moments, marks; in the order in which they are named.
    rows: [
        ["V2", "PAY", "ann@alpha → bob@beta", "30.00", "✓SUCCESS", "2024-01-01 05:30:00", "1 repeated"],
        ["N1", "PAY", "ann@alpha → ned@beta", "2.00", "✕FAILURE DECLINED", "2024-01-01 05:30:00", ""],
        ["Z1", "PAY", "ann@alpha → bob@beta", "0.00", "–not opened: AMT", "2024-01-01 05:30:00", "1 refused"],
        ["T9", "", "", "", "–not opened", "2024-01-01 05:30:00", "1 refused"],
        ["F1", "PAY", "ann@alpha → bob@beta", "70.01", "✕FAILURE FUNDS", "2024-01-01 05:30:00", "1 refused"],
        ["K1", "PAY", "ann@alpha → cat@beta", "10.00", "✕FAILURE NOCREDIT", "2024-01-01 05:30:00", "1 refused"],
        ["C1", "COLLECT", "ann@alpha → bob@beta", "4.00", "✕FAILURE CLOSED", "2024-01-01 05:30:00", ""],
        ["D1", "PAY", "ann@alpha → bob@beta", "5.00", "✕FAILURE CLOSED", "2024-01-01 05:30:00", ""],
    ],
    V2: lines(`
        E 1 05:30:00 alpha>SWITCH ReqPay PAY 30.00 = OK : Asking
        E 2 05:30:00 SWITCH>beta M1 REQAUTH 30.00 = TOLD : Asking
        E 3 05:30:00 beta>SWITCH M2 RESPAUTH 30.00 YES = OK : Debiting
        E 4 05:30:00 alpha>SWITCH ReqChkTxn = STATUS PENDING : Debiting
        E 5 05:30:00 SWITCH>AAAA M3 DEBIT 30.00 = POSTED : Debiting
        E 6 05:30:00 AAAA>SWITCH M4 ANSWER DEBIT POSTED = OK : Crediting
        E 7 05:30:00 SWITCH>BBBB M5 CREDIT 30.00 = POSTED : Crediting
        E 8 05:30:00 BBBB>SWITCH M6 ANSWER CREDIT POSTED = OK : SUCCESS
        E 9 05:30:00 SWITCH>alpha M7 RESPPAY SUCCESS = TOLD : SUCCESS
        E 10 05:30:00 beta>SWITCH RespTxnConfirmation = OK : SUCCESS
        E 11 05:30:00 alpha>SWITCH ReqChkTxn = STATUS SUCCESS : SUCCESS
        E 12 05:30:00 SWITCH>beta M8 CONFIRM SUCCESS = TOLD : SUCCESS
        E 13 05:30:00 beta>SWITCH M9 CONFIRMED = OK : SUCCESS [» says it again]`),
    note: "Note: <script>document.title=\"taken\"</script><b>tea</b> = OK",
    version: "Version 2.0: initiationMode 01, purpose 05",
    N1: lines(`
        E 14 05:30:00 alpha>SWITCH ReqPay PAY 2.00 = OK : Asking
        E 15 05:30:00 SWITCH>beta M10 REQAUTH 2.00 = TOLD : Asking
        E 16 05:30:00 beta>SWITCH M11 RESPAUTH 2.00 NO = OK : FAILURE DECLINED
        E 17 05:30:00 alpha>SWITCH ReqChkTxn = STATUS FAILURE DECLINED : FAILURE DECLINED
        M 12 SWITCH>alpha M12 RESPPAY FAILURE DECLINED [○ never delivered]
        M 13 SWITCH>beta M13 CONFIRM FAILURE DECLINED [○ never delivered]`),
    Z1: ["E 20 05:30:00 alpha>SWITCH ReqPay PAY 0.00 = NO AMT : not opened [⊘ NO AMT]"],
    T9: ["E 21 05:30:00 alpha>SWITCH ReqChkTxn = NO NOTXN : not opened [⊘ NO NOTXN]",
        "E 41 05:30:00 LATE = NOTDUE : not opened [not due]"],
    F1: lines(`
        E 22 05:30:00 alpha>SWITCH ReqPay PAY 70.01 = OK : Asking
        E 23 05:30:00 SWITCH>beta M14 REQAUTH 70.01 = TOLD : Asking
        E 24 05:30:00 beta>SWITCH M15 RESPAUTH 70.01 YES = OK : Debiting
        E 25 05:30:00 SWITCH>AAAA M16 DEBIT 70.01 = DECLINED FUNDS : Debiting [⊘ DECLINED FUNDS]
        E 26 05:30:00 AAAA>SWITCH M17 ANSWER DEBIT DECLINED FUNDS = OK : FAILURE FUNDS
        M 18 SWITCH>alpha M18 RESPPAY FAILURE FUNDS [○ never delivered]
        M 19 SWITCH>beta M19 CONFIRM FAILURE FUNDS [○ never delivered]`),
    K1: lines(`
        E 27 05:30:00 alpha>SWITCH ReqPay PAY 10.00 = OK : Asking
        E 28 05:30:00 SWITCH>beta M20 REQAUTH 10.00 = TOLD : Asking
        E 29 05:30:00 beta>SWITCH M21 RESPAUTH 10.00 YES = OK : Debiting
        E 30 05:30:00 SWITCH>AAAA M22 DEBIT 10.00 = POSTED : Debiting
        E 31 05:30:00 AAAA>SWITCH M23 ANSWER DEBIT POSTED = OK : Crediting
        E 32 05:30:00 SWITCH>BBBB M24 CREDIT 10.00 = DECLINED NOCREDIT : Crediting [⊘ DECLINED NOCREDIT]
        E 33 05:30:00 BBBB>SWITCH M25 ANSWER CREDIT DECLINED NOCREDIT = OK : Reversing (NOCREDIT)
        E 34 05:30:00 SWITCH>AAAA M26 REVERSAL 10.00 = POSTED : Reversing (NOCREDIT)
        E 35 05:30:00 AAAA>SWITCH M27 ANSWER REVERSAL POSTED = OK : FAILURE NOCREDIT
        M 28 SWITCH>alpha M28 RESPPAY FAILURE NOCREDIT [○ never delivered]
        M 29 SWITCH>beta M29 CONFIRM FAILURE NOCREDIT [○ never delivered]`),
    C1: lines(`
        E 36 05:30:00 beta>SWITCH ReqPay COLLECT 4.00 = OK : Asking
        E 42 05:30:00 CLOSE = CLOSED : FAILURE CLOSED
        M 30 SWITCH>alpha M30 REQAUTH 4.00 [○ never delivered]`),
    D1: lines(`
        E 37 05:30:00 alpha>SWITCH ReqPay PAY 5.00 = OK : Asking
        E 38 05:30:00 SWITCH>beta M31 REQAUTH 5.00 = TOLD : Asking
        E 39 05:30:00 beta>SWITCH M32 RESPAUTH 5.00 YES = OK : Debiting
        E 40 05:30:00 SWITCH>AAAA M33 DEBIT 5.00 = POSTED : Debiting
        E 42 05:30:00 CLOSE = CLOSED : FAILURE CLOSED
        E 43 05:30:00 alpha>SWITCH ReqChkTxn = STATUS FAILURE CLOSED : FAILURE CLOSED
        M 34 AAAA>SWITCH M34 ANSWER DEBIT POSTED [○ never delivered]`),
    outcomes: [
        "✓ SUCCESS | 1 | 30.00 | 16.7 %", "✕ FAILURE CLOSED | 2 | 9.00 | 33.3 %", "✕ FAILURE DECLINED | 1 | 2.00 | 16.7 %",
        "✕ FAILURE FUNDS | 1 | 70.01 | 16.7 %", "✕ FAILURE NOCREDIT | 1 | 10.00 | 16.7 %",
    ],
    balances: [
        "AAAA/1 | 100.00 | -30.00 | 70.00 | 70.00 |", "BBBB/1 | 5.00 | +30.00 | 35.00 | 35.00 |",
        "BBBB/2 | 0.00 | 0.00 | 0.00 | 0.00 | takes no debits, takes no credits",
    ],
    apart: [
        "44 | E 18 0 1704067200 BAD alpha - JSON = NO FORMAT",
        "45 | E 19 0 1704067200 HEAR alpha {\"RespPay\":{\"Head\":{\"msgId\":\"A9\",\"orgId\":\"alpha\",\"ts\":\"2024-01-01T05:30:00+05:30\",\"ver\":\"1.0\"}}} = NO NOTYOURS",
        "48 | # NOMSG 99 13",
        "90 | E 42 0 1704067200 CLOSE = CLOSED",
    ],
};

module.exports = { PAYMENTS, EVERYTHING, NETS_OF_30, NO_NETS };
