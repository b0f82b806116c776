// What the page shows, read from it as a user would: each function runs in the page and answers plain
// texts. Nothing here asks the page's own reader or model.
"use strict";

/** The text of each child, blanks made single. */
const rows = () => [...document.querySelectorAll(".canvas .grid-row")]
    .sort((one, other) => one.dataset.at - other.dataset.at)
    .map((row) => [...row.children].map((cell) => [...cell.childNodes].map((node) => node.textContent).join(" ").trim()));

/**
 * The steps of the sequence, each as a line: `E 4 05:30:00 SWITCH>AAAA M3 DEBIT 30.00 = POSTED : Debiting
 * [chips]`. Who an arrow goes from and to is read from where it stands under the names.
 */
const steps = () => {
    const heads = [...document.querySelectorAll(".heads rect")];
    const names = [...document.querySelectorAll(".heads text.name")].map((text) => text.textContent);
    const at = (x) => names[heads.findIndex((head) => {
        const middle = Number(head.getAttribute("x")) + Number(head.getAttribute("width")) / 2;
        return Math.abs(middle - x) < 40;
    })];
    return [...document.querySelectorAll(".step")].map((step) => {
        const text = (selector) => step.querySelector(selector)?.textContent ?? "";
        const arrow = step.querySelector("line.arrow");
        const ends = arrow && ["x1", "x2"].map((end) => Number(arrow.getAttribute(end)));
        const broken = step.matches(".is-lost, .is-waiting");
        // A head's base lies before its tip, seen from where the arrow comes from.
        const base = Number(/^M\S+ \S+ l(\S+)/.exec(step.querySelector("path.head")?.getAttribute("d"))?.[1] ?? 0);
        const tip = base === 0 || base < 0 === ends[0] < ends[1] ? ">" : " against ";
        const way = ends ? `${at(ends[0])}${tip}${at(broken ? 2 * ends[1] - ends[0] : ends[1])}` : "";
        const chips = [...step.querySelectorAll(".chip")].map((chip) => chip.textContent);
        const parts = [text(".when b"), text(".when > span"), way, text("text.label"), text("text.reply")];
        const stands = text(".stands b");
        return parts.filter(Boolean).join(" ") + (stands && ` : ${stands}`) + (chips.length > 0 ? ` [${chips.join(", ")}]` : "");
    });
};

/** What each step sends, by its entry: `E 1: M1 REQAUTH → beta`. */
const sends = () => [...document.querySelectorAll(".step")].flatMap((step) =>
    [...step.querySelectorAll("text.sends")].map((text) => `${step.querySelector(".when b").textContent}: ${text.textContent.replace("sends ", "")}`));

/** Which arrows are drawn as repeats, refused, lost and late, by their entries. */
const shapes = () => {
    const of = (selector) => [...document.querySelectorAll(".step")].filter((step) => step.querySelector(selector))
        .map((step) => step.querySelector(".when b").textContent).join(" ");
    return { again: of(".arrow.is-again"), refused: of("circle.bar"), lost: of("path.cross"), late: of("path.glass"), waiting: of("circle.open") };
};

/** What stands beside how a payment stands: due moments and money in flight, by entries. */
const asides = () => [...document.querySelectorAll(".step .stands small")].map((small) =>
    `${small.closest(".step").querySelector(".when b").textContent} ${small.textContent}`.trim());

/** The body of a table, by its caption. */
const table = (caption) => {
    const found = [...document.querySelectorAll("table")].find((one) => one.caption.textContent === caption);
    return found ? [...found.tBodies[0].rows].map((row) => [...row.cells].map((cell) => cell.innerText.replace(/\s+/g, " ").trim()).join(" | ").trim()) : null;
};

const cards = () => Object.fromEntries([...document.querySelectorAll(".card")].map((card) =>
    [card.querySelector("dt").textContent, card.querySelector("dd").textContent]));

const facts = () => [...document.querySelectorAll(".facts > div")].map((fact) =>
    `${fact.querySelector("dt").textContent}: ${fact.querySelector("dd").textContent}`);

const banners = () => [...document.querySelectorAll("#banners > .banner")].map((banner) => banner.innerText.replace(/\s+/g, " ").trim());

const badges = () => [...document.querySelectorAll(".payment-head .badge, .payment-head .chip")].map((badge) => badge.textContent);

const reportLines = () => [...document.querySelectorAll(".report-lines li code")].map((code) => code.textContent);

/**
 * Texts in sight whose contrast to what is behind them is below 4.5 to 1.
 * Colours behind a text are those of its ancestors, laid over each other.
 */
const faint = () => {
    const read = (colour) => {
        const parts = (/^rgba?\(([^)]*)\)/.exec(colour)?.[1] ?? "0,0,0,0").split(/[\s,/]+/).map(Number);
        return [...parts.slice(0, 3), parts[3] ?? 1];
    };
    const over = (top, below) => [0, 1, 2].map((at) => top[at] * top[3] + below[at] * (1 - top[3])).concat(1);
    const behind = (element) => {
        const layers = [];
        for (let one = element; one; one = one.parentElement) layers.push(read(getComputedStyle(one).backgroundColor));
        return layers.reverse().reduce((below, top) => over(top, below), [255, 255, 255, 1]);
    };
    const light = (colour) => {
        const [red, green, blue] = colour.map((part) => {
            const value = part / 255;
            return value <= 0.04045 ? value / 12.92 : ((value + 0.055) / 1.055) ** 2.4;
        });
        return 0.2126 * red + 0.7152 * green + 0.0722 * blue;
    };
    const found = [];
    let texts = 0;
    const walker = document.createTreeWalker(document.body, NodeFilter.SHOW_TEXT);
    for (let node = walker.nextNode(); node; node = walker.nextNode()) {
        const element = node.parentElement;
        if (!node.textContent.trim() || !element.checkVisibility({ visibilityProperty: true }) || element.closest("script, option")) continue;
        const style = getComputedStyle(element);
        const below = behind(element);
        const ink = over(read(element.closest("svg") ? style.fill : style.color), below);
        const [bright, dark] = [light(ink), light(below)].sort((one, other) => other - one);
        texts += 1;
        if ((bright + 0.05) / (dark + 0.05) < 4.5) found.push(`${element.className?.baseVal ?? element.className} “${node.textContent.trim().slice(0, 30)}”`);
    }
    return { enough: texts > 5, faint: [...new Set(found)] };
};

module.exports = { rows, steps, sends, shapes, asides, table, cards, facts, banners, badges, reportLines, faint };
