// Shared by the page and its workers: the columns of a book, and its CSV as docs/formats.md has it.
const SLOT = (8 * 51 * 120) / 26 / 1000; // seconds of a slot: eight 51-multiframes, a frame lasts 120/26 ms
const WHOLE_CELL = 100; // loads are hundredths
const MOST_PAGES = 15;
const COLUMNS = {
    cell: ["lac", "ci"],
    write: ["at", "name", "id", "scope", "code", "lang", "category", "period", "broadcasts", "cells", "text"],
    update: ["at", "name", "lang", "category", "period", "broadcasts", "cells", "text"],
    stop: ["at", "name", "cells"],
};
const RANGES = { at: [0, 65535], id: [0, 65535], code: [0, 1023], period: [1, 1024] };
const LANGUAGES = "de en it fr es nl sv da pt fi no el tr hu pl und cs he ar ru is".split(" ");
const isNumber = (text, name) => /^\d{1,5}$/.test(text) && +text >= RANGES[name][0] && +text <= RANGES[name][1];

// Returns the rows of a CSV: their fields, their place in the text (from, to), and whether a quote is open at their
// end. Empty lines are no rows.
function parseCsv(text, comma = ",") {
    const plain = new RegExp(`[^${comma}\\r\\n]*`, "y"), inQuotes = /"([^"]*(?:""[^"]*)*)("|$)/y, rows = [];
    for (let at = text.charCodeAt(0) === 0xfeff ? 1 : 0; at < text.length; at++) {
        if (text[at] === "\n" || text[at] === "\r") continue;
        const row = { fields: [], from: at, to: at, isOpen: false };
        do {
            let value = "";
            inQuotes.lastIndex = at;
            const match = text[at] === '"' ? inQuotes.exec(text) : null;
            if (match) {
                value = match[1].replaceAll('""', '"');
                at = inQuotes.lastIndex;
            }
            plain.lastIndex = at;
            plain.test(text);
            row.fields.push(value + text.slice(at, plain.lastIndex));
            row.isOpen = match?.[2] === "";
            at = plain.lastIndex + 1;
        } while (text[at - 1] === comma);
        row.to = --at;
        rows.push(row);
    }
    return rows;
}
const quoted = (field) => (/[",\r\n]/.test(field) ? `"${field.replaceAll('"', '""')}"` : field);
const rowText = (fields) => fields.map(quoted).join(",");

// Returns what a table of the program says: for each row its fields by the names of the columns.
function tableOf(text) {
    const [head, ...rows] = parseCsv(text);
    return rows.map(({ fields }) => Object.fromEntries(head.fields.map((name, k) => [name, fields[k]])));
}

// Returns what the rows of a book say, without judging them: that is the program's. An update and a stop have the
// identifier, the scope and the code of their name's `write`; `latest` is the latest slot of an order.
function readBook(text) {
    const rows = parseCsv(text), cells = [], orders = [], names = new Map();
    let latest = 0;
    rows.forEach(({ fields }, k) => {
        const [verb] = fields, order = { row: k + 1, verb, cells: "" };
        if (!COLUMNS[verb]) order.text = fields.join(", ");
        else COLUMNS[verb].forEach((name, column) => { order[name] = fields[column + 1] ?? ""; });
        if (verb === "cell") {
            cells.push({ row: k + 1, key: `${+order.lac}-${+order.ci}` });
            return;
        }
        latest = Math.max(latest, +order.at || 0);
        order.where = order.cells === "*" ? cells.map((it) => it.key)
            : order.cells.split(" ").map((word) => word.replace(/\b0+(?=\d)/g, ""));
        if (verb === "write" && !names.has(order.name)) names.set(order.name, { write: order, updates: 0 });
        const first = names.get(order.name);
        if (first && verb !== "write") for (const it of ["id", "scope", "code"]) order[it] = first.write[it];
        order.update = verb === "update" && first ? ++first.updates : 0;
        order.serial = ((+order.scope << 14) | (+order.code << 4) | order.update).toString(16).padStart(4, "0");
        orders.push(order);
    });
    return { rows, cells, orders, names, latest };
}
