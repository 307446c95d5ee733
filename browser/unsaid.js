// In a worker: what the page shows and the program doesn't say yet. In how many cells an order's message is shown, or
// never is; texts with spaces at an end, and orders of all cells with cells after them. It is read of the program's
// report and chart (docs/formats.md).
const REFERENCES = { amp: "&", lt: "<", gt: ">", quot: '"' };
const plain = (markup) => (
    markup.includes("&") ? markup.replace(/&(#?\w+);/g, (_, name) => REFERENCES[name] ?? "'") : markup);
function between(text, front, end) {
    const at = text.indexOf(front);
    return at < 0 ? "" : text.slice(at + front.length, text.indexOf(end, at + front.length));
}

// Returns a message or a refused order: a line of the full report, and the chart's line of it. A phone shows a message
// after a slot, and so does a mark stand; one whose marks would be too close has none.
function messageOf([row, name, , , id, serial, start, end, whole, , first, , period, , cause], box) {
    return {
        row: +row, name, id: +id, serial, start: +start, end: +end, whole: +whole, period: +period, cause,
        first: first === "" ? -1 : +first + 1, level: between(box, '<rect class="', '"'),
        category: between(box, "<i>", "</i>"), text: plain(between(box, "<bdi>", "</bdi>")),
        marks: between(box, '<path class="whole" d="', '"'),
    };
}

// Returns the load of a cell: what is reserved from a slot on, and when it is the most.
function loadOf(lines) {
    const loads = lines.map(([, , slot, share]) => [+slot, +share]);
    return { loads, fullest: loads[lines.findIndex((fields) => fields[4])] };
}

// Returns the cells that a heading of the chart names: "Cell 1-2", "Cells 1-2, 3-4, 2 cells" or "Cells 1-2 to 1-9, 8
// cells".
function cellsNamed(heading) {
    const names = heading.replace(/^Cells? |, \d+ cells$/g, "").split(", "), [from, to] = names[0].split(" to ");
    if (!to) return names;
    const [lac, first] = from.split("-"), last = to.split("-")[1];
    return Array.from({ length: last - first + 1 }, (_, k) => `${lac}-${+first + k}`);
}

// Returns the lines of a report, each with its fields. Most reports quote nothing, and are split in no time.
function linesOf(report) {
    const lines = report.includes('"') ? parseCsv(report).map(({ fields }) => fields)
        : report.split("\n").map((line) => line.split(","));
    return lines.filter((fields) => fields.length > 1).slice(1);
}

// Returns the groups of cells that the chart draws once, with their messages and loads.
function groupsOf(chart, reported, loaded, book) {
    const places = new Map(book.cells.map(({ key }, index) => [key, index]));
    const lines = Map.groupBy(reported, ([, , lac, ci]) => `${lac}-${ci}`);
    const loads = Map.groupBy(loaded, ([lac, ci]) => `${lac}-${ci}`);
    return chart.split("<details open").slice(1).map((part) => {
        const cells = cellsNamed(between(part, "<h2>", "</h2>")).map((key) => ({ key, index: places.get(key) }));
        const boxes = part.split("<div>").slice(1), said = lines.get(cells[0].key) || [];
        const messages = said.map((fields, k) => messageOf(fields, boxes[k]));
        return { cells, messages, ...loadOf(loads.get(cells[0].key)) };
    });
}

// Returns of each order in how many cells its message is shown, and which cells refused it, by the cause.
function fatesOf(reported, book) {
    const fates = new Map(book.orders.map(({ row }) => [row, { row, shown: 0, refused: {} }]));
    for (const [row, , lac, ci, , , , , , , first, , , , cause] of reported) {
        const fate = fates.get(+row);
        if (cause) (fate.refused[cause] ||= []).push(`${lac}-${ci}`);
        else if (first !== "") fate.shown++;
    }
    return [...fates.values()];
}

// Returns what the program doesn't remark yet, as `check --slots` would.
function ownRemarks({ cells, orders }) {
    return orders.flatMap(({ row, cells: where, text }) => {
        const after = where === "*" ? cells.filter((cell) => cell.row > row).length : 0;
        const isSpaced = text?.trim() && text !== text.trim();
        return [isSpaced ? "spaces at an end of the text" : "", after ? `${after} declared after it` : ""]
            .filter(Boolean).map((says) => ({ row, says }));
    });
}
