// Draws one step of a payment's sequence: an arrow between the lifelines of those who take part.
// What befell a message is told by the arrow's shape: a line that breaks off at a cross is lost, a
// double head is a repeat, a barred circle a refusal, an hourglass a Late, an open end a message that
// nobody delivered.
"use strict";

Viewer.arrows = (() => {
    const { svg } = Viewer.dom;

    /** Pixels between lifelines, and beside the outer ones. */
    const LANE = 164;
    const EDGE = 92;
    /** Where the arrow, the words above it and those below it stand. */
    const LINE = 28;
    const ABOVE = 19;
    const BELOW = 43;
    const SENDS = 15;
    /** How far a lifeline goes beyond its drawing; the row cuts it off where it ends. */
    const BEYOND = 400;

    const width = (lanes) => EDGE * 2 + LANE * (lanes.length - 1);

    /**
     * What a step draws.
     * @typedef {{from: number, to: number, label: string, reply: string, shape: string, again: boolean,
     *   sends: string[], at: number}} Drawing
     *   `from`, `to` and `at` are places of lanes; `at` is who sends. `shape` is told, lost, refused,
     *   late, close, waiting, or unknown where the journal has no line of the message
     */

    /**
     * Draws a step.
     * @param {string[]} lanes
     * @param {Drawing} drawing
     */
    function draw(lanes, drawing) {
        const height = 52 + SENDS * drawing.sends.length;
        const x = (lane) => EDGE + LANE * lane;
        return svg("svg", {
            class: `strip is-${drawing.shape}`, width: width(lanes), height,
            viewBox: `0 0 ${width(lanes)} ${height}`, "aria-hidden": "true", focusable: "false",
        },
        lanes.map((name, lane) => svg("line", {
            class: name === "SWITCH" ? "life is-switch" : "life", x1: x(lane), x2: x(lane), y1: -BEYOND, y2: height + BEYOND,
        })),
        shapeOf(drawing, x, lanes),
        drawing.sends.map((said, at) => beside(x, drawing, lanes, BELOW + SENDS * (at + 1), `sends ${said}`)));
    }

    function shapeOf(drawing, x, lanes) {
        switch (drawing.shape) {
            case "late": return late(x(drawing.at), drawing);
            case "close": return close(x, drawing, lanes);
            case "unknown": return [words(x(drawing.at), ABOVE, drawing.label, "label"), words(x(drawing.at), BELOW, drawing.reply, "reply")];
            default: return arrow(x(drawing.from), x(drawing.to), drawing);
        }
    }

    function words(x, y, said, kind, anchor = "middle") {
        return svg("text", { x, y, class: kind, "text-anchor": anchor }, said);
    }

    /** Words beside the lifeline of who sends, away from the arrow that came, where there is room. */
    function beside(x, { from, at }, lanes, y, said) {
        const right = at === 0 || (from < at && at < lanes.length - 1);
        return words(x(at) + (right ? 8 : -8), y, said, "sends", right ? "start" : "end");
    }

    function head(x, way) {
        return svg("path", { class: "head", d: `M${x} ${LINE} l${-10 * way} -5 v10 z` });
    }

    function arrow(from, to, { shape, label, reply, again }) {
        const way = to > from ? 1 : -1;
        const middle = (from + to) / 2;
        const end = { told: to, refused: to - 15 * way, lost: middle - 8 * way, waiting: middle }[shape];
        const line = svg("line", { class: again ? "arrow is-again" : "arrow", x1: from, x2: end, y1: LINE, y2: LINE });
        const ends = {
            told: () => [head(to, way), again && head(to - 9 * way, way)],
            refused: () => [
                svg("circle", { class: "bar", cx: to - 8 * way, cy: LINE, r: 7 }),
                svg("line", { class: "bar", x1: to - 8 * way - 5, x2: to - 8 * way + 5, y1: LINE - 5, y2: LINE + 5 }),
                again && head(to - 17 * way, way),
            ],
            lost: () => [svg("path", { class: "cross", d: `M${middle - 6} ${LINE - 6} l12 12 m0 -12 l-12 12` })],
            waiting: () => [svg("circle", { class: "open", cx: middle + 5 * way, cy: LINE, r: 5 })],
        };
        return [
            line, ends[shape](), svg("circle", { class: "from", cx: from, cy: LINE, r: 3 }),
            words(middle, ABOVE - (shape === "lost" ? 2 : 0), label, "label"), words(middle, BELOW, reply, "reply"),
        ].flat().filter(Boolean);
    }

    function late(x, { label, reply }) {
        const glass = `M${x - 8} ${LINE - 11} h16 l-13 22 h10 l-13 -22`;
        return [
            svg("path", { class: "glass", d: `${glass} M${x - 8} ${LINE + 11} h16` }),
            words(x + 16, LINE - 2, label, "label", "start"), words(x + 16, LINE + 13, reply, "reply", "start"),
        ];
    }

    function close(x, { label, reply, at }, lanes) {
        const line = (y) => svg("line", { class: "shut", x1: x(0) - 30, x2: x(lanes.length - 1) + 30, y1: y, y2: y });
        return [line(LINE - 2), line(LINE + 2), words(x(at), ABOVE - 2, label, "label"), words(x(at), BELOW + 1, reply, "reply")];
    }

    /** The names above the lifelines. */
    function heads(lanes, roles) {
        const x = (lane) => EDGE + LANE * lane;
        return svg("svg", {
            class: "strip heads", width: width(lanes), height: 54, viewBox: `0 0 ${width(lanes)} 54`,
            role: "img", "aria-label": `From left to right: ${lanes.map((name, at) => `${name}, ${roles[at]}`).join("; ")}`,
        }, lanes.map((name, lane) => [
            svg("rect", { class: "box", x: x(lane) - 74, y: 2, width: 148, height: 42, rx: 6 }),
            words(x(lane), 20, name, "name"), words(x(lane), 36, roles[lane], "role"),
            svg("line", { class: name === "SWITCH" ? "life is-switch" : "life", x1: x(lane), x2: x(lane), y1: 44, y2: 54 }),
        ]).flat());
    }

    /** A small picture of a shape, for the legend. */
    function sample(shape, again) {
        const drawing = { shape, again, label: "", reply: "" };
        const parts = shape === "late" ? late(28, drawing) : arrow(6, 52, drawing);
        return svg("svg", { class: `strip is-${shape}`, width: 58, height: 26, viewBox: "0 15 58 26", "aria-hidden": "true", focusable: "false" }, parts);
    }

    return { draw, heads, sample };
})();
