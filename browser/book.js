// The pane "Book": the table is a window on the rows of the text; each edit replaces one row of it and nothing else.
const GRID = "row at verb name id scope code lang category period broadcasts cells text result".split(" ");
const sheet = { k: 0, column: 1, from: 0, to: 0, height: 0, isEditing: false, isTouched: false };

function editFields(number, changes, why) { // those that the row has
    const row = state.book.rows[number - 1], fields = row.fields.slice();
    for (const [name, value] of Object.entries(changes)) {
        const at = COLUMNS[fields[0]].indexOf(name) + 1;
        while (fields.length < at) fields.push("");
        if (at > 0) fields[at] = value;
    }
    if (rowText(fields) === rowText(row.fields)) return;
    setBook(state.text.slice(0, row.from) + rowText(fields) + state.text.slice(row.to), why);
}
function addRows(rows, after) { // after a row, or at the start
    const row = state.book.rows[after - 1], at = row ? row.to : 0, made = rows.map(rowText).join("\n");
    setBook(state.text.slice(0, at) + (row ? `\n${made}` : `${made}\n`) + state.text.slice(at));
}
function deleteRow(number) {
    const row = state.book.rows[number - 1];
    if (!row) return;
    if (state.row === number) state.row = 0;
    setBook(state.text.slice(0, row.from) + state.text.slice(row.to).replace(/^(\r\n|\n|\r)/, ""));
}

function showCells() { // each remark of a cell says that it gets nothing
    const { cells } = state.book, faulty = new Set(state.faults.map((fault) => +fault.row));
    const silent = new Set(state.fault ? [] : allRemarks().map((it) => it.cell));
    const chip = ({ row, key }) => {
        const isSilent = silent.has(key), said = isSilent ? `: ${saying("gets nothing")}` : "";
        const className = faulty.has(row) ? "bad" : isSilent ? "odd" : "";
        return node("li", { className, title: `${say("c_row")} ${row}${said}` },
            isSilent ? "!\u00a0" : null, node("bdi", key),
            node("button", { "aria-label": say("removeCell", key), onclick: () => deleteRow(row) }, "×"));
    };
    fill($("b-cells"), cells.map(chip));
    rove($("b-cells"), "button");
    const count = cells.filter(({ key }) => silent.has(key)).length;
    fill($("b-ncells"), number(cells.length), count ? node("b.warntext", ` · ! ${sayCount("silent", count)}`) : null);
}
function showBook() {
    $("b-undo").disabled = !state.past.length;
    $("b-redo").disabled = !state.future.length;
    if (state.pane !== "book") return;
    const { cells, orders } = state.book;
    showCsv();
    if (document.activeElement !== $("b-slots")) $("b-slots").value = state.slots;
    $("b-length").textContent = `${say("slots")} = ${timeText(state.slots, false)}`;
    $("b-clock").value = state.clock;
    showCells();
    $("b-norders").textContent = number(orders.length);
    $("b-empty").hidden = cells.length + orders.length > 0;
    $("b-sheet").hidden = !orders.length;
    sheet.k = within(sheet.k, 0, orders.length - 1);
    $("b-grid").setAttribute("aria-rowcount", orders.length + 1);
    if (!sheet.isEditing) drawRows(true);
    for (const id of ["b-text", "b-copy", "b-delete"]) $(id).disabled = !orders.length;
    showFaults();
}
const LONG_CSV = 5e4;
let csvTimer = 0;
function showCsv() { // a long text costs the browser 0.1 s to lay out, so it waits until the hands rest
    clearTimeout(csvTimer);
    const now = () => { if ($("b-csv").value !== state.text) $("b-csv").value = state.text; };
    if (state.text.length < LONG_CSV) now();
    else csvTimer = setTimeout(now, 700);
}
function showResults() {
    if (state.pane === "book" && !sheet.isEditing) showBook();
}

// Draws the rows that are in sight, and some above and below.
const MARGIN = 10, LEAST_HEIGHT = 400, A_ROW = 46;
function drawRows(isForced) {
    const { orders } = state.book, box = $("b-sheet"), body = $("b-grid").tBodies[0], height = sheet.height || A_ROW;
    const from = Math.max(0, Math.floor(box.scrollTop / height) - MARGIN);
    const last = Math.ceil((box.scrollTop + Math.max(box.clientHeight, LEAST_HEIGHT)) / height) + MARGIN;
    const to = Math.min(orders.length, last), hasFocus = body.contains(document.activeElement);
    if (!isForced && from === sheet.from && to === sheet.to) return;
    Object.assign(sheet, { from, to });
    if (isForced) sheet.saidOf = saidByRow();
    const space = (count) => node("tr.space", { "aria-hidden": "true", css: { height: `${count * height}px` } });
    fill(body, space(Math.min(from, orders.length)),
        orders.slice(from, to).map((order, k) => drawRow(order, from + k)), space(orders.length - to));
    showSaid();
    const one = body.rows[1], isOther = one && !one.classList.contains("space") && one.offsetHeight !== sheet.height;
    if (isOther && one.offsetHeight) {
        sheet.height = one.offsetHeight;
        if (orders.length > 30) requestAnimationFrame(() => drawRows(true));
    }
    if (hasFocus) chosenCell()?.focus({ preventScroll: true });
}

// Returns what a field of an order shows: the person's unit above, and the program's below.
const pair = (above, below) => [node("span", above), node("small", below)];
const showField = {
    at: ({ at }) => (isNumber(at, "at") ? pair(timeText(+at), at) : at),
    verb: ({ verb }) => (COLUMNS[verb] ? say(verb) : verb),
    name: ({ name }) => node("bdi", name),
    id: ({ verb, id }) => (verb === "write" ? pair(id, nameOfId(+id)) : node("small", id || "")),
    category: ({ category }) => (WORDS[`category${category}`] ? say(`category${category}`) : category),
    period: ({ period }) => (isNumber(period, "period") ? pair(spanText(+period), period) : period),
    broadcasts: ({ broadcasts }) => (/^0+$/.test(broadcasts) ? node("small", say("untilStop")) : broadcasts),
    cells({ cells, where: { length } }) {
        if (cells === "*") return pair(say("allCells", length), "*");
        return length > 1 ? pair(say("nCells", length), cells) : cells;
    },
    text({ text }, { cost }) {
        const ucs2 = cost?.first_ucs2 ? [" · UCS-2: ", node("bdi", cost.first_ucs2)] : null;
        return [node("bdi", { dir: "auto" }, text), cost ? node("small", sayCount("costs", +cost.pages), ucs2) : null];
    },
    result: (order, { notes }) => showNotes(notes),
};

// Returns a function that has what is said of an order: its fault, what its text costs, and what is noted of it.
function saidByRow() {
    const byRow = (list) => Map.groupBy(list, (it) => +it.row), ofGood = (list) => byRow(state.fault ? [] : list);
    const faults = byRow(state.faults), costs = ofGood(state.costs), fates = ofGood(state.fates);
    const remarks = ofGood(allRemarks());
    return (order) => {
        const [fault, cost, fate] = [faults, costs, fates].map((it) => it.get(order.row)?.[0]);
        return { fault, cost, notes: fate ? notesOf(order, fate, remarks.get(order.row) || []) : [] };
    };
}

// Returns in how many of its cells an order wasn't done, by a remark of it.
const PAST_THE_END = "cell broadcast not operational";
function missedBy(says, { where }, { refused }) {
    const words = says.split(" ");
    if (says === "orders nothing") return where.length;
    if (says === "past the end") return refused[PAST_THE_END]?.length ?? 0;
    if (words[0] === "refused") return +words[2];
    return words[0] === "leaves" ? words.length - 2 : 0;
}
// Returns what is noted of an order: in how many cells it is done, and what is remarked of it; of a refusal also where.
function notesOf(order, fate, remarks) {
    const said = remarks.map((it) => it.says), isStop = order.verb === "stop", { shown, refused } = fate;
    const done = isStop ? said.reduce((count, says) => count - missedBy(says, order, fate), order.where.length) : shown;
    const rank = (says) => SAYS.findIndex(([form]) => form.test(says));
    const notes = said.sort((one, other) => rank(one) - rank(other)).map((says) => {
        const cells = refused[says === "past the end" ? PAST_THE_END : says.split(": ")[1]];
        const text = saying(says) + (cells ? ` (${cells.join(" ")})` : "");
        return isRefusal({ says }) ? ["badtext", `✕ ${text}`] : ["warntext", `! ${text}`];
    });
    return done > 0 ? [["oktext", `✓ ${say(isStop ? "doneIn" : "shownIn", done)}`], ...notes] : notes;
}
// In a row the first note, and after it the others, are as short as they can be; all of them stand below the table.
function showNotes(notes) {
    const [first, ...others] = notes.map(([color, text]) => node(`span.${color}`, text.split(": ")[0]));
    return first ? [node("div", first), node("div", others.map((it) => [it, " "]))] : "–";
}
function showSaid() {
    const order = chosenOrder(), notes = order ? sheet.saidOf(order).notes : [];
    const isWarned = notes.some(([color]) => color !== "oktext");
    const all = notes.map(([color, text]) => [" · ", node(`span.${color}`, text)]);
    fill($("b-said"), isWarned ? [`${say("c_row")} ${order.row}`, all] : null);
}
function drawRow(order, k) {
    const { verb, row, id, text, cells } = order, said = sheet.saidOf(order), { fault, notes } = said;
    const own = new Set([...COLUMNS[verb] || ["text"], "row", "verb", "result"]);
    const faulty = fault?.field.toLowerCase();
    const titles = { text, cells, result: notes.map(([, note]) => note).join("\n") };
    if (id && verb === "update") own.add("id");
    const cell = (name, column) => node("td", {
        role: name === "row" ? "rowheader" : "gridcell", tabIndex: k === sheet.k && column === sheet.column ? 0 : -1,
        className: `c-${name}${own.has(name) ? "" : " none"}${name === faulty ? " badcell" : ""}`,
        "aria-invalid": name === faulty ? "true" : undefined, "data-k": k, "data-column": column,
        "data-h": say(`c_${name}`), title: titles[name],
    }, own.has(name) ? showField[name]?.(order, said) ?? order[name] : null);
    const className = `v-${verb}${fault ? " bad" : ""}${k === sheet.k ? " chosen" : ""}`;
    return node("tr", { role: "row", "aria-rowindex": k + 2, className }, GRID.map(cell));
}

const chosenOrder = () => state.book.orders[sheet.k];
const chosenCell = () => $("b-grid").querySelector(`td[data-k="${sheet.k}"][data-column="${sheet.column}"]`);
function moveTo(k, column) {
    const box = $("b-sheet"), head = $("b-grid").tHead.offsetHeight;
    sheet.k = within(k, 0, state.book.orders.length - 1);
    sheet.column = within(column, 0, GRID.length - 1);
    const top = sheet.k * sheet.height, end = top + sheet.height + head;
    if (top < box.scrollTop) box.scrollTop = top;
    else if (end > box.scrollTop + box.clientHeight) box.scrollTop = end - box.clientHeight + 4;
    drawRows();
    showSaid();
    for (const one of $("b-grid").tBodies[0].querySelectorAll("td[tabindex='0']")) {
        one.tabIndex = -1;
        one.parentNode.classList.remove("chosen");
    }
    const cell = chosenCell();
    if (!cell) return;
    cell.tabIndex = 0;
    cell.parentNode.classList.add("chosen");
    cell.focus({ preventScroll: true });
    cell.scrollIntoView({ block: "nearest", inline: "nearest" });
}
function selectRow(row, name) {
    const k = state.book.orders.findIndex((order) => order.row === row);
    const cell = state.book.cells.findIndex((it) => it.row === row);
    if (k >= 0) moveTo(k, Math.max(0, GRID.indexOf(name)));
    else if (cell >= 0) $("b-cells").children[cell].querySelector("button").focus();
}
function selectCsv(number) { // marks the row in the CSV too, and brings it into view
    const row = state.book.rows[number - 1], box = $("b-csv");
    if (!row) return;
    box.setSelectionRange(row.from, row.to);
    const line = state.text.slice(0, row.from).split(/\r\n|\r|\n/).length;
    box.scrollTop = Math.max(0, (line - 3) * parseFloat(getComputedStyle(box).lineHeight));
}

// Edits the chosen field; what is typed replaces it, if something is.
const CHOICES = {
    lang: () => LANGUAGES.map((word) => [word, word]),
    category: () => [0, 1, 2].map((k) => [k, say(`category${k}`)]),
    scope: () => [0, 1, 2, 3].map((k) => [k, say(`scope${k}`)]),
};
function fieldBox(order, name, isTime) {
    const label = { "aria-label": `${say(`c_${name}`)}, ${say("c_row")} ${order.row}` };
    const choices = CHOICES[name]?.().map(([value, text]) => node("option", { value }, text));
    if (choices) return node("select", label, choices);
    const given = { ...label, dir: "auto", autocomplete: "off", title: isTime ? say("h_time") : undefined };
    return name === "text" ? node("textarea.big", given) : node("input", given);
}
function edit(typed) {
    const order = chosenOrder(), name = GRID[sheet.column], cell = chosenCell(), isTime = /^(at|period)$/.test(name);
    if (!order || !cell || !(COLUMNS[order.verb] || []).includes(name)) return;
    sheet.isEditing = true;
    const box = fieldBox(order, name, isTime), old = order[name];
    const done = (isTaken, down = 0, right = 0) => {
        if (!sheet.isEditing) return;
        sheet.isEditing = false;
        const isNew = isTaken && box.value !== old, slots = isNew && isTime ? slotsOf(box.value, name === "at") : null;
        const value = slots === null ? box.value : String(slots);
        if (isNew && isTime && slots === null) tell(say("badTime", value));
        if (isNew && value !== old) editFields(order.row, { [name]: value });
        else drawRows(true);
        moveTo(sheet.k + down, sheet.column + right);
    };
    box.value = typed ?? old;
    box.onkeydown = (event) => {
        event.stopPropagation();
        if (event.key === "Escape") done(false);
        else if (event.key === "Enter" && !(name === "text" && event.shiftKey)) done(true, typed === undefined ? 0 : 1);
        else if (event.key === "Tab") done(true, 0, event.shiftKey ? -1 : 1);
        else return;
        event.preventDefault();
    };
    box.onblur = () => done(true);
    fill(cell, box);
    cell.classList.add("editing");
    const { right, top } = cell.getBoundingClientRect();
    if (name === "text") place(box, right - box.offsetWidth, top);
    box.focus();
    if (typed === undefined && box.select) box.select();
}
$("b-grid").tBodies[0].onclick = (event) => {
    const cell = event.target.closest("td[data-k]");
    if (!cell || sheet.isEditing) return;
    const isSame = cell === chosenCell() && sheet.isTouched;
    sheet.isTouched = true;
    moveTo(+cell.dataset.k, +cell.dataset.column);
    if (isSame || event.detail > 1) edit();
};
$("b-grid").onkeydown = (event) => {
    if (sheet.isEditing) return;
    const { k, column } = sheet, isControl = event.ctrlKey || event.metaKey, { key } = event;
    const page = Math.max(1, Math.floor($("b-sheet").clientHeight / sheet.height) - 1);
    const steps = {
        ArrowUp: [k - 1, column], ArrowDown: [k + 1, column], ArrowLeft: [k, column - 1], ArrowRight: [k, column + 1],
        PageUp: [k - page, column], PageDown: [k + page, column], Home: [isControl ? 0 : k, 0],
        End: [isControl ? state.book.orders.length - 1 : k, GRID.length - 1],
    };
    if (steps[key]) moveTo(...steps[key]);
    else if (isControl && key === "Enter") $("b-copy").click();
    else if (isControl && key === "Delete") $("b-delete").click();
    else if (key === "Enter" || key === "F2") edit();
    else if (key.length === 1 && !isControl && !event.altKey) edit(key);
    else return;
    event.preventDefault();
    event.stopPropagation();
};
let isScrolling = false;
$("b-sheet").onscroll = () => {
    if (isScrolling || sheet.isEditing) return;
    isScrolling = true;
    requestAnimationFrame(() => {
        isScrolling = false;
        drawRows();
    });
};

// New rows. A new alert has a name that no other has, and a code that none with its identifier and scope has.
function freshName(base, k = 2) {
    while (state.book.names.has(`${base}-${k}`)) k++;
    return `${base}-${k}`;
}
function freshCode(id, scope, code) {
    const isTaken = (it) => it.verb === "write" && +it.id === +id && +it.scope === +scope && +it.code === code;
    for (let tries = 0; tries < 1024 && state.book.orders.some(isTaken); tries++) code = (code + 1) % 1024;
    return String(code);
}
function newFields(verb) {
    const first = state.book.names.get(chosenOrder()?.name)?.write, at = String(state.book.latest);
    const code = freshCode(4371, 0, 1), lang = language ? "de" : "en";
    if (verb === "write") return [verb, at, freshName("alert", 1), "4371", "0", code, lang, "2", "32", "0", "*", "…"];
    return first ? [verb, at, ...COLUMNS[verb].slice(1).map((name) => first[name])] : null;
}
for (const it of document.querySelectorAll("[data-add]")) it.onclick = () => {
    const fields = newFields(it.dataset.add);
    if (!fields) return;
    addRows([fields], state.book.rows.length);
    moveTo(state.book.orders.length - 1, 1);
};
$("b-copy").onclick = () => {
    const order = chosenOrder();
    if (!order) return;
    const fields = state.book.rows[order.row - 1].fields.slice();
    if (order.verb === "write") {
        fields[2] = freshName(order.name);
        fields[5] = freshCode(order.id, order.scope, +order.code);
    }
    addRows([fields], order.row);
    moveTo(sheet.k + 1, 3);
};
$("b-delete").onclick = () => {
    const order = chosenOrder();
    if (!order) return;
    deleteRow(order.row);
    moveTo(sheet.k, sheet.column);
};
$("b-text").onclick = () => {
    const order = chosenOrder();
    if (!order || !hasText(order)) return;
    state.row = order.row;
    showPane("text");
    $("t-text").focus();
};
const MOST_CELLS = 64;
$("b-addcell").onsubmit = (event) => {
    event.preventDefault();
    const rows = [], known = new Set(state.book.cells.map((cell) => cell.key));
    for (const [, lac, first, last] of $("b-cell").value.matchAll(/(\d{1,5})-(\d{1,5})(?:\.\.(\d{1,5}))?/g)) {
        for (let ci = +first; ci <= +(last ?? first) && rows.length < MOST_CELLS; ci++) {
            if (known.has(`${+lac}-${ci}`)) continue;
            known.add(`${+lac}-${ci}`);
            rows.push(["cell", String(+lac), String(ci)]);
        }
    }
    if (!rows.length) return;
    addRows(rows, state.book.cells.at(-1)?.row ?? 0);
    $("b-cell").value = "";
};

// What `check` says of each row that has a fault, in its words, and what may help.
const MOST_FAULTS = 5;
function hintOf({ row, field }) {
    const { fields, isOpen } = state.book.rows[row - 1] || { fields: [] }, columns = COLUMNS[fields[0]];
    const more = columns ? fields.slice(columns.length + 1) : [];
    if (isOpen) return say("h_open");
    if (field === "AT" || field === "PERIOD") return say("h_time");
    if (field !== "VERB" || !more.length) return "";
    return say(more.every((it) => it === "") ? "h_filled" : "h_comma");
}
function faultItem(fault) {
    const { row, line, column, field, value, says } = fault, go = () => {
        selectRow(+row, field.toLowerCase());
        selectCsv(+row);
    };
    return node("li", node("p", node("b", `${say("faultAt", row, line, column)} ${field} · `),
        value === "" ? null : ["“", node("bdi", value), "”: "], `${saying(says)}. `, node("small", hintOf(fault))),
    button(say("goThere"), go));
}
function showFaults() {
    const { fault, faults } = state, more = faults.length - MOST_FAULTS;
    $("b-faults").hidden = !fault;
    if (!fault) return;
    fill($("b-faults"), faults.slice(0, MOST_FAULTS).map(faultItem),
        more > 0 ? node("li", say("furtherFaults", number(more))) : null,
        faults.length ? null : node("li", say("faultWord", fault)));
}

$("b-csv").oninput = () => setBook($("b-csv").value, "typing");
$("b-undo").onclick = () => undo();
$("b-redo").onclick = () => undo(true);
$("b-flood").onclick = () => {
    state.slots = 9600;
    setBook($("flood").textContent, "load");
};
$("b-new").onclick = () => {
    state.row = 0;
    setBook("", "load");
    $("b-cell").focus();
};
$("b-slots").onchange = () => {
    const slots = slotsOf($("b-slots").value);
    if (slots >= 1 && slots <= 65535) {
        Object.assign(state, { slots, at: Math.min(state.at, slots), zoom: null });
        if ($("b-keep").checked) keepBook();
        compute();
    } else {
        tell(say("badTime", $("b-slots").value));
    }
    $("b-slots").value = state.slots;
    showBook();
};
$("b-clock").onchange = () => {
    state.clock = $("b-clock").value;
    showBook();
};
$("b-keep").onchange = keepBook;
$("b-open").onclick = () => $("b-file").click();
$("b-file").onchange = () => {
    if ($("b-file").files[0]) openFile($("b-file").files[0]);
    $("b-file").value = "";
};
function download(name, octets) {
    const link = node("a", { href: URL.createObjectURL(new Blob([octets])), download: name });
    link.click();
    setTimeout(() => URL.revokeObjectURL(link.href), 9000);
}
$("b-save").onclick = () => download("book.csv", state.text);

// Returns the text of a file, and how it was taken: what a spreadsheet writes is no book as it stands.
function textOf(octets) {
    const isUtf16 = octets[0] === 0xff && octets[1] === 0xfe;
    try {
        const text = new TextDecoder(isUtf16 ? "utf-16le" : "utf-8", { fatal: true }).decode(octets);
        return [text, isUtf16 ? ["m_utf16"] : []];
    } catch {
        return [new TextDecoder("windows-1252").decode(octets), ["m_latin"]];
    }
}
function mendedBook(text) {
    const head = text.slice(0, 400).split(/[\r\n]/).find(Boolean) || "", how = [];
    const other = /^(cell|write|update|stop)([;\t])/.exec(head), rows = parseCsv(text, other ? other[2] : ",");
    const lengthOf = (row) => (COLUMNS[row.fields[0]] || row.fields).length + 1;
    const restOf = (row) => row.fields.slice(lengthOf(row));
    const isFilled = (row) => restOf(row).length > 0 && restOf(row).every((it) => it === "");
    if (other) how.push("m_semicolons");
    if (rows.some(isFilled)) how.push("m_filled");
    if (!how.length) return [text, how];
    const lines = rows.map((row) => rowText(isFilled(row) ? row.fields.slice(0, lengthOf(row)) : row.fields));
    return [`${lines.join("\n")}\n`, how];
}
async function openFile(file) {
    const [read, first] = textOf(new Uint8Array(await file.arrayBuffer())), [text, second] = mendedBook(read);
    const how = [...first, ...second].map((key) => say(key));
    state.row = 0;
    setBook(text, "load");
    showPane("book");
    tell(how.length ? say("mended", file.name, how.join(", ")) : say("opened", file.name));
}
addEventListener("dragover", (event) => {
    if (!event.dataTransfer?.types.includes("Files")) return;
    event.preventDefault();
    $("dropping").hidden = false;
});
addEventListener("dragleave", (event) => { if (!event.relatedTarget) $("dropping").hidden = true; });
addEventListener("drop", (event) => {
    const file = event.dataTransfer?.files[0];
    $("dropping").hidden = true;
    if (!file) return;
    event.preventDefault();
    openFile(file);
});
