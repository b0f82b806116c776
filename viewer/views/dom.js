// Makes elements. Whatever comes from a journal goes in as text: nothing here, or in any other file of
// the page, reads markup.
"use strict";

Viewer.dom = (() => {
    const SVG = "http://www.w3.org/2000/svg";

    /** Sets attributes; a function listens, `undefined`, null and false are left out. */
    function set(element, attributes) {
        for (const [name, value] of Object.entries(attributes)) {
            if (typeof value === "function") element.addEventListener(name, value);
            else if (value !== undefined && value !== null && value !== false) {
                element.setAttribute(name, value === true ? "" : value);
            }
        }
    }

    /** The children that are there; texts become text nodes. */
    const present = (children) => children.flat(Infinity).filter((child) => child !== null && child !== undefined && child !== false);

    /**
     * An element of the page.
     * @param {string} tag
     * @param {Object<string, *>} attributes   functions are listeners
     * @param {...(Node|string|null)} children
     */
    function el(tag, attributes = {}, ...children) {
        const element = document.createElement(tag);
        set(element, attributes);
        element.append(...present(children));
        return element;
    }

    /** An element of a drawing. */
    function svg(tag, attributes = {}, ...children) {
        const element = document.createElementNS(SVG, tag);
        set(element, attributes);
        element.append(...present(children));
        return element;
    }

    const byId = (id) => document.getElementById(id);

    /**
     * A plain table.
     * @param {string} caption
     * @param {{title: string, number?: boolean}[]} columns
     * @param {(Node|string)[][]} rows
     */
    function table(caption, columns, rows) {
        const cell = (tag, column, content, more) =>
            el(tag, { class: column.number ? "number" : undefined, ...more }, content);
        return el("table", {},
            el("caption", {}, caption),
            el("thead", {}, el("tr", {}, columns.map((column) => cell("th", column, column.title, { scope: "col" })))),
            el("tbody", {}, rows.map((row) => el("tr", {}, row.map((content, at) =>
                at === 0 ? cell("th", columns[0], content, { scope: "row" }) : cell("td", columns[at], content))))));
    }

    /**
     * The first of many, and a button that shows the rest.
     * @param {Array} all
     * @param {number} most
     * @param {(some: Array) => Node} show
     */
    function firstOf(all, most, show) {
        const box = el("div", {}, show(all.slice(0, most)));
        if (all.length <= most) return box;
        const more = el("button", {
            type: "button",
            click: () => box.replaceChildren(show(all)),
        }, `Show all ${all.length.toLocaleString("en-US")}`);
        box.append(more);
        return box;
    }

    return { el, svg, byId, table, firstOf };
})();
