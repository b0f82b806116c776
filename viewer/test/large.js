// Makes a large journal in the form of a load's: 50,000 payments of 10.00 between forty accounts at
// four banks, with its report. What becomes of payment j goes by its last digit, so that every sum can
// be told by hand: 9 is declined by the payee's PSP; of 3 the credit is lost, of 6 the credit's answer,
// and both are deemed; all others succeed, and their credit is delivered twice.
"use strict";

const BANKS = ["AAAA", "BBBB", "CCCC", "DDDD"];
const PSPS = ["alpha", "beta", "gamma", "delta"];
const USERS = 40;
const START = 1_704_067_200;
const OPENING = 1_000_000_00;
const AMOUNT = 10_00;

const money = (paise) => `${paise < 0 ? "-" : ""}${Math.floor(Math.abs(paise) / 100)}.${String(Math.abs(paise) % 100).padStart(2, "0")}`;
const account = (user) => `${BANKS[user % 4]}/${user + 1}`;
const address = (user) => `u${user + 1}@${PSPS[user % 4]}`;

/**
 * @param {number} count   payments
 * @returns {string}       the journal
 */
function large(count) {
    const lines = ["START 2024-01-01T05:30:00+05:30", ...BANKS.map((bank) => `BANK ${bank}`), ...PSPS.map((psp) => `PSP ${psp}`)];
    const users = [...Array(USERS).keys()];
    lines.push(...users.map((user) => `ACCOUNT ${account(user)} ${money(OPENING)}`));
    lines.push(...users.map((user) => `ADDR ${address(user)} ${account(user)} ${user % 10 === 0 ? "NO" : "YES"}`), "OPEN");
    const balances = users.map(() => OPENING);
    const outcomes = [];
    const settled = [];
    let place = 0;
    let sent = 0;
    let now = START;
    const entry = (call) => lines.push(`E ${place += 1} 0 ${now} ${call}`);
    const message = (text) => {
        lines.push(`M ${sent += 1} ${text}`);
        return sent;
    };

    for (let j = 1; j <= count; j += 1) {
        const payer = j % USERS;
        const payee = (j + 1) % USERS;
        const id = `L${String(j).padStart(6, "0")}`;
        const [asks, asked] = [PSPS[payer % 4], PSPS[payee % 4]];
        const [pays, gets] = [BANKS[payer % 4], BANKS[payee % 4]];
        const digit = j % 10;
        entry(`HEAR ${asks} {"ReqPay":{"Head":{"msgId":"G${id.slice(1)}","orgId":"${asks}","ts":"2024-01-01T05:30:00+05:30","ver":"1.0"},"Payees":{"Payee":[{"addr":"${address(payee)}"}]},"Payer":{"Amount":{"curr":"INR","value":"10.00"},"addr":"${address(payer)}"},"Txn":{"id":"${id}","type":"PAY"}}} = OK`);
        entry(`DELIVER ${message(`SWITCH ${asked} REQAUTH ${id} 10.00`)} = TOLD`);
        const approval = message(`${asked} SWITCH RESPAUTH ${id} 10.00 ${digit === 9 ? "NO" : "YES"}`);
        entry(`DELIVER ${approval} = OK`);
        let outcome = "FAILURE DECLINED";
        if (digit !== 9) {
            const debit = message(`SWITCH ${pays} DEBIT ${id} 10.00 ${account(payer)}`);
            entry(`DELIVER ${debit} = POSTED`);
            balances[payer] -= AMOUNT;
            const debited = message(`${pays} SWITCH ANSWER ${id} DEBIT POSTED`);
            entry(`DELIVER ${debited} = OK`);
            const credit = message(`SWITCH ${gets} CREDIT ${id} 10.00 ${account(payee)}`);
            outcome = end(digit, credit, id, gets, payee);
            settled.push([id, pays, gets]);
        }
        const told = message(`SWITCH ${asks} RESPPAY ${id} ${outcome}`);
        const confirm = message(`SWITCH ${asked} CONFIRM ${id} ${outcome}`);
        entry(`DELIVER ${told} = TOLD`);
        entry(`DELIVER ${confirm} = TOLD`);
        entry(`DELIVER ${message(`${asked} SWITCH CONFIRMED ${id}`)} = OK`);
        const [word, code = ""] = outcome.split(" ");
        outcomes.push(`OUTCOME,${id},,${word},10.00,${code}`);
        if (digit === 6) now += 1;
    }
    entry("CLOSE = CLOSED");
    return [...lines, "REPORT", "row,id,bank,detail,amount,code", ...outcomes, ...report(), ""].join("\n");

    /** The credit's way, up to the entry that ends the payment. */
    function end(digit, credit, id, gets, payee) {
        if (digit === 3) {
            entry(`LOSE ${credit} = LOST`);
        } else {
            entry(`DELIVER ${credit} = POSTED`);
            balances[payee] += AMOUNT;
            const answer = message(`${gets} SWITCH ANSWER ${id} CREDIT POSTED`);
            if (digit !== 6) {
                entry(`DELIVER ${credit} = POSTED`);
                message(`${gets} SWITCH ANSWER ${id} CREDIT POSTED`);
                entry(`DELIVER ${answer} = OK`);
                return "SUCCESS";
            }
            entry(`LOSE ${answer} = LOST`);
        }
        now += 30;
        entry(`LATE ${id} = DONE`);
        return "DEEMED";
    }

    function* report() {
        for (const bank of BANKS) {
            for (const [id, pays, gets] of settled) {
                if (pays === bank) yield `SETTLE,${id},${bank},PAID,10.00,`;
                if (gets === bank) yield `SETTLE,${id},${bank},RECEIVED,10.00,`;
            }
        }
        for (const bank of BANKS) {
            const net = settled.reduce((sum, [, pays, gets]) => sum + (gets === bank) - (pays === bank), 0);
            yield `NET,,${bank},,${money(net * AMOUNT)},`;
        }
        const items = settled.filter(([id]) => id.endsWith("3"));
        for (const [id, , gets] of items) yield `RECON,${id},${gets},,10.00,`;
        for (const user of users) yield `BALANCE,${user + 1},${BANKS[user % 4]},,${money(balances[user])},`;
        yield `FLIGHT,,,,${money(items.length * AMOUNT)},`;
    }
}

module.exports = { large };
