// The pane "Air". Each x is a share of the slots that are shown, in hundredths, so nothing is drawn anew when a width
// changes, but for the marks of broadcasts, which stand only where they are 4 px apart.
const MANY = 12, A_STRIP = 510, MOST_LINES = 300, MOST_MARKS = 400, LEAST_GAP = 4, LEAST_WINDOW = 16;
const shownSlots = () => state.zoom || [0, state.slots];
function placeOf(slot) {
    const [from, to] = shownSlots();
    return (100 * (slot - from)) / (to - from);
}
const hasCell = ({ cells }) => cells.some((cell) => cell.key === state.cell);
const chosenGroup = () => state.groups.find(hasCell) || state.groups[0];
function nameOfGroup({ cells }) {
    if (cells.length === 1) return say("cell", cells[0].key);
    const isRow = cells.every((cell, k) => k === 0 || cell.index === cells[k - 1].index + 1);
    return isRow ? say("cellsTo", cells[0].key, cells.at(-1).key) : cells.map((cell) => cell.key).join(", ");
}
const loadAt = (group, slot) => (group.loads.findLast(([from]) => from <= slot) || [0, 0])[1];
const fullestText = ({ fullest: [slot, load] }, key = "fullest") => say(key, load, timeText(slot));

// Of a message: the slots after which a broadcast is whole, by the chart or by its cell's tape, and what is said of it.
// The chart's line of marks goes along by so many slots to each of them.
function slotsOn(path) {
    let slot = 0;
    return Array.from(path.matchAll(/h(\d+)/g), ([, along]) => (slot += +along));
}
const marksOf = (message) => message.slots ??= slotsOn(message.marks);
const nameOf = (message) => message.name || `${message.id} ${message.serial}`;
const kindOf = (message) => `${message.id} · ${nameOfId(message.id)}`;
const urgencyOf = (message) => say(`category${["high", "background", "normal"].indexOf(message.category)}`);
const refusalOf = ({ cause, start }) => `${say("refusedBecause", say(cause))} (${cause}), ${timeText(start)}`;
function factsOf({ start, end, period, whole, first }) {
    return [["d_from", timeText(start)], ["d_to", timeText(Math.max(start, end))],
        ["d_every", `${spanText(period)} (${period})`], ["d_whole", number(whole)],
        ["d_first", first < 0 ? say("never") : timeText(first)]];
}
function sentenceOf(message) {
    const facts = message.cause ? [refusalOf(message)]
        : [kindOf(message), urgencyOf(message), ...factsOf(message).map(([key, value]) => `${say(key)} ${value}`)];
    return `${nameOf(message)}, ${facts.join(", ")}. ${message.text}`;
}

function showAir() {
    if (state.pane !== "air") return;
    const isThere = state.groups.length > 0;
    $("a-none").hidden = isThere && !state.fault;
    $("a-none").textContent = say(isThere ? "stale" : Desk.module ? "noAir" : "starting");
    $("a-all").hidden = !isThere;
    $("a-all").classList.toggle("stale", !!state.fault);
    if (!isThere) return;
    // widths are asked for before anything is drawn, so that the browser need not lay out what is half done
    const group = chosenGroup(), wide = $("a-load").clientWidth;
    const columns = Math.max(1, Math.floor($("a-strips").clientWidth / A_STRIP));
    if (!hasCell(group)) state.cell = group.cells[0].key;
    $("a-strips").classList.toggle("many", state.groups.length > MANY);
    $("a-strips").style.setProperty("--rows", Math.ceil(state.groups.length / columns));
    fill($("a-strips"), state.groups.map((one) => node("li", drawStrip(one, one === group))));
    rove($("a-strips"), ".strip");
    // at first the moment when a phone shows something
    const firsts = group.messages.map((it) => (it.first < 0 ? state.slots : it.first));
    if (!state.at) state.at = Math.max(0, Math.min(state.slots, ...firsts));
    const cells = state.groups.flatMap((one) => one.cells).sort((one, other) => one.index - other.index);
    fill($("a-cell"), cells.map((cell) => node("option", { value: cell.key }, cell.key)));
    $("a-cell").value = state.cell;
    drawChart(wide);
    showReport();
}
function chooseCell(key) {
    Object.assign(state, { cell: key, air: null });
    showAir();
}
function drawStrip(group, isChosen) {
    const { cells, messages } = group, refused = messages.filter((it) => it.cause), isMany = state.groups.length > MANY;
    const onclick = () => {
        chooseCell(cells[0].key);
        $("a-strips").querySelector("[aria-pressed=true]").focus();
    };
    const nick = (it) => node("i.nick", { css: { left: `${(100 * it.start) / state.slots}%` } });
    const equal = cells.length > 1 ? `${say("equal", cells.length)} · ` : "";
    return node("button.strip", { "aria-pressed": String(isChosen), onclick },
        node("span.who", node("b", isMany && cells.length === 1 ? cells[0].key : nameOfGroup(group)),
            node("small", equal + say("messages", messages.length - refused.length))),
        node("span.lane.thin", drawLoad(group, [0, state.slots]), refused.slice(0, 200).map(nick)),
        node("span.much", group.fullest[1] ? fullestText(group, isMany ? "fullestShort" : "fullest") : say("empty"),
            refused.length ? node("b.badtext", ` ✕ ${say("nRefused", refused.length)}`) : null));
}
function drawLoad(group, [from, to], isTall) {
    const steps = group.loads.map(([slot, load]) => `H${slot}V${WHOLE_CELL - load}`).join("");
    const quarter = (part) => node("path.quarter", { d: `M${from} ${WHOLE_CELL * part}H${to}` });
    const box = { viewBox: `${from} 0 ${to - from} ${WHOLE_CELL}`, preserveAspectRatio: "none", role: "img" };
    return node("svg", { ...box, "aria-label": fullestText(group) },
        node("path.load", { d: `M0 ${WHOLE_CELL}${steps}H${state.slots}V${WHOLE_CELL}z` }),
        isTall ? [0.25, 0.5, 0.75].map(quarter) : null);
}

// The axis at round times, also of a clock.
const ROUND = [5, 10, 15, 30, 60, 120, 300, 600, 900, 1800, 3600, 7200, 10800, 21600, 43200, DAY];
const A_LABEL = 88;
function drawAxis(from, to, wide) {
    const least = ((to - from) * SLOT) / Math.max(2, Math.floor(wide / A_LABEL)), ticks = [];
    const step = ROUND.find((it) => it >= least) || DAY, off = startOfClock() % step;
    for (let time = Math.ceil((from * SLOT + off) / step) * step - off; time <= to * SLOT + 0.01; time += step) {
        if (time < 0) continue;
        const slot = time / SLOT, place = placeOf(slot), side = place > 96 ? "last" : place < 3 ? "start" : "";
        const text = step >= 60 ? timeText(slot).replace(/:00$/, "") : timeText(slot);
        ticks.push(node("span", { css: { left: `${place}%` }, className: side }, text));
    }
    return ticks;
}
function drawChart(wide = $("a-load").clientWidth) {
    const group = chosenGroup(), [from, to] = shownSlots();
    const messages = group.messages.filter((it) => it.end >= from && it.start <= to);
    const more = messages.length - MOST_LINES;
    $("a-title").textContent = say("chartOf", nameOfGroup(group));
    fill($("a-lines"), messages.slice(0, MOST_LINES).map((it) => drawLine(it, from, to, wide)),
        more > 0 ? node("li.faint", `… +${more}`) : null);
    rove($("a-lines"), ".msg");
    fill($("a-load"), drawLoad(group, [from, to], true), node("span.edge", "100 %"));
    $("a-fullest").textContent = fullestText(group);
    fill($("a-axis"), drawAxis(from, to, wide));
    state.at = Math.min(Math.max(state.at, from), to);
    Object.assign($("a-time"), { min: from, max: to });
    $("a-time").value = state.at;
    for (const id of ["z-out", "z-all", "z-back", "z-fwd"]) $(id).disabled = !state.zoom;
    $("z-in").disabled = to - from <= LEAST_WINDOW + 4;
    showTime();
}
function drawRefusal({ start, cause }) {
    const left = placeOf(start), isFar = left > 55, side = isFar ? { right: `${100 - left}%` } : { left: `${left}%` };
    return [node("span.flag.no", { css: { left: `${left}%` } }, "✕"),
        node(isFar ? "span.why.far" : "span.why", { css: side }, say("refusedBecause", say(cause)))];
}
function drawBar(message, from, to, wide) {
    const { level, start, end, first, period } = message, high = 4 + 1.2 * level[1];
    const marks = marksOf(message).filter((slot) => slot >= from && slot <= to);
    const isDense = marks.length > MOST_MARKS || (period * wide) / (to - from) < LEAST_GAP;
    const d = marks.map((slot) => `M${slot} 0v10`).join("");
    const bar = { x: start, width: end - start, y: (10 - high) / 2, height: high };
    return [
        node("svg", { viewBox: `${from} 0 ${to - from} 10`, preserveAspectRatio: "none", "aria-hidden": "true" },
            end > start ? node(`rect.beam.${level}`, bar) : null,
            marks.length === 1 || !isDense ? node(`path.whole.${level}`, { d }) : null),
        first >= from && first <= to ? node("span.flag.first", { css: { left: `${placeOf(first)}%` } }) : null];
}
function drawLine(message, from, to, wide) {
    const { id, cause, category, whole, text } = message;
    const lane = node("div.lane", cause ? drawRefusal(message) : drawBar(message, from, to, wide));
    const urgency = cause || category === "normal" ? "" : ` · ${urgencyOf(message)}`;
    const label = node("button.msg", {
        "aria-label": sentenceOf(message), "aria-expanded": "false", onblur: hideTip,
        onclick: () => openDetails(line, label, message),
        onfocus: () => { if (label.matches(":focus-visible")) showTip(lane, message); },
    }, node("span", node("b", node("bdi", nameOf(message))),
        node("small", `${id}${urgency}${cause ? "" : ` · ${number(whole)}×`}`)), node("bdi", { dir: "auto" }, text));
    const line = node(cause ? "li.line.refused" : "li.line", {
        onmouseenter: () => showTip(lane, message), onmouseleave: hideTip,
    }, label, lane);
    return line;
}

function detailsOf(message) {
    const { row, cause, serial, text } = message, place = row ? ` · ${say("c_row")} ${row} · ${serial}` : "";
    return [
        node("p", node("b", node("bdi", nameOf(message))), " ", node("span", kindOf(message)), node("small", place)),
        cause ? node("p.badtext", `✕ ${refusalOf(message)}`)
            : node("dl", factsOf(message).map(([key, value]) => [node("dt", say(key)), node("dd", value)])),
        text ? node("p.whole-text", { dir: "auto" }, text) : null];
}
function openDetails(line, label, message) {
    const open = line.querySelector(".more"), go = () => {
        showPane("book");
        selectRow(message.row, "text");
    };
    hideTip();
    label.setAttribute("aria-expanded", String(!open));
    if (open) open.remove();
    else line.append(node("div.more", detailsOf(message), message.row ? button(say("showRow"), go) : null));
}
function showTip(lane, message) {
    if (lane.parentNode.querySelector(".more")) return;
    const tip = $("tip"), { top, bottom, left } = lane.getBoundingClientRect();
    fill(tip, detailsOf(message));
    tip.hidden = false;
    const isBelow = bottom + 6 + tip.offsetHeight <= innerHeight;
    place(tip, left + 24, isBelow ? bottom + 6 : top - tip.offsetHeight - 6);
}
function hideTip() {
    $("tip").hidden = true;
}

// The moment: what a phone in the cell has shown by then, newest on top, and what is on the channel.
const HIGHEST = [4370, 4383];
let speakTimer = 0, spoken = "";
function phoneItem({ id, end, first, text }) {
    const isOver = end <= state.at, className = isOver ? "over" : HIGHEST.includes(id) ? "highest" : "";
    return node("li", { className }, node("header", node("b", nameOfId(id)), node("time", timeText(first))),
        node("p", { dir: "auto" }, text), isOver ? node("small", say("over")) : null);
}
function showTime() {
    const group = chosenGroup(), slot = state.at;
    const seen = group.messages.filter((it) => it.first >= 0 && it.first <= slot)
        .sort((one, other) => other.first - one.first);
    $("a-chart").style.setProperty("--where", `${placeOf(slot)}%`);
    $("a-over").style.setProperty("--where", `${(100 * slot) / state.slots}%`);
    $("a-now").textContent = $("a-clock").textContent = timeText(slot);
    $("a-slot").textContent = say("slotOf", number(slot), number(state.slots));
    $("a-time").setAttribute("aria-valuetext", `${timeText(slot)}, ${say("load")} ${loadAt(group, slot)} %`);
    fill($("a-shown"), seen.length ? seen.map(phoneItem) : node("li.none", say("nothingYet")));
    clearTimeout(speakTimer);
    speakTimer = setTimeout(() => {
        const text = seen.length ? say("shownNow", `${nameOf(seen[0])}, ${seen[0].text}`) : say("nothingYet");
        if (text !== spoken) $("a-say").textContent = spoken = text;
        showChannel(group);
    }, 180);
}
// Gives a message whose marks would be too close in the chart, which has none of it then, those that its cell's tape
// has: after each slot that sends a last page.
function markByTape(message, { air, page }) {
    const key = message.id * 0x10000 + parseInt(message.serial, 16);
    message.slots = [];
    for (let slot = message.start; slot < Math.min(message.end, air.length); slot++) {
        if (air[slot] === key && page[slot] >> 4 === (page[slot] & 15)) message.slots.push(slot + 1);
    }
}
async function showChannel(group) { // asked once for each cell
    const cell = group.cells.find((it) => it.key === state.cell);
    if (!cell || under || state.air?.asked === state.cell) return;
    if (state.air?.key !== state.cell) {
        state.air = { asked: state.cell };
        const result = await bookDesk.ask("channel", { text: state.done, slots: state.slots, cell: cell.index });
        if (cell.key !== state.cell) return;
        if (!result.air) {
            $("a-onair").textContent = result.fault || "";
            return;
        }
        state.air = { key: cell.key, ...result };
        const unmarked = group.messages.filter((it) => it.whole > 0 && it.marks === "");
        unmarked.forEach((it) => markByTape(it, result));
        if (unmarked.length) drawChart();
    }
    const slot = Math.min(state.at, state.slots - 1), key = state.air.air[slot], page = state.air.page[slot];
    const isOf = (it) => !it.cause && it.id === key >>> 16 && parseInt(it.serial, 16) === (key & 0xffff);
    const message = key ? chosenGroup().messages.find(isOf) : null;
    $("a-onair").textContent = key ? say("onAir", page >> 4, page & 15, message ? nameOf(message) : key) : say("idle");
}
function setTime(slot) {
    const [from, to] = shownSlots();
    state.at = Math.max(0, Math.min(state.slots, Math.round(slot)));
    $("a-time").value = state.at;
    if (state.at < from || state.at > to) zoomTo(state.at - (to - from) / 2, state.at + (to - from) / 2);
    else showTime();
}
function zoomTo(from, to) {
    const width = Math.max(LEAST_WINDOW, Math.min(state.slots, Math.round(to - from)));
    const first = Math.max(0, Math.min(state.slots - width, Math.round(from)));
    state.zoom = width >= state.slots ? null : [first, first + width];
    drawChart();
}
function jump(isForward) { // to the next moment at which the phone or the cell changes
    const all = chosenGroup().messages.flatMap((it) => [it.start, it.end, it.first]);
    const others = all.filter((it) => it >= 0 && it <= state.slots && (isForward ? it > state.at : it < state.at));
    if (others.length) setTime(isForward ? Math.min(...others) : Math.max(...others));
}
function pan(direction) {
    const [from, to] = shownSlots(), step = (direction * (to - from)) / 2;
    state.at = Math.round(Math.max(0, Math.min(state.slots, state.at + step)));
    zoomTo(from + step, to + step);
}
function zoomBy(factor) { // about the moment
    const [from, to] = shownSlots(), width = (to - from) * factor, middle = state.at - width / 2;
    const first = factor < 1 ? Math.max(from, middle) : middle;
    zoomTo(first, first + width);
}
$("a-time").oninput = () => {
    state.at = +$("a-time").value;
    showTime();
};
$("a-time").onkeydown = (event) => {
    const direction = { PageUp: 1, PageDown: -1 }[event.key], [from, to] = shownSlots();
    if (!direction) return;
    event.preventDefault();
    setTime(state.at + direction * Math.max(1, Math.round((to - from) / 40)));
};
$("a-cell").onchange = () => chooseCell($("a-cell").value);
$("z-prev").onclick = () => jump(false);
$("z-next").onclick = () => jump(true);
$("z-in").onclick = () => zoomBy(1 / 3);
$("z-out").onclick = () => zoomBy(3);
$("z-back").onclick = () => pan(-1);
$("z-fwd").onclick = () => pan(1);
$("z-all").onclick = () => zoomTo(0, state.slots);
let resized = 0;
addEventListener("resize", () => {
    clearTimeout(resized);
    resized = setTimeout(() => {
        sheet.height = 0;
        showAir();
        if (state.pane === "book" && !sheet.isEditing) drawRows(true);
    }, 120);
});

// The report, and what can be taken along.
const MOST_REPORTED = 400;
function reportRow(message) {
    const { row, name, id, serial, start, end, period, whole, first, cause, text } = message;
    const shown = cause ? node("span.badtext", `✕ ${say(cause)}`)
        : first >= 0 ? node("span.oktext", `✓ ${say("yes")}`) : node("span.warntext", `! ${say("no")}`);
    const times = cause ? ["", "", ""] : [timeText(Math.max(start, end)), spanText(period), number(whole)];
    const fields = [row ?? "", node("bdi", name ?? ""), id, serial, timeText(start), ...times,
        first < 0 ? "" : timeText(first), shown, node("bdi", { dir: "auto" }, text)];
    return node(cause ? "tr.refused" : "tr", fields.map((field) => node("td", field)));
}
function showReport() {
    const group = chosenGroup();
    $("a-of").textContent = say("ofCell", nameOfGroup(group));
    fill($("a-report").tBodies[0], group.messages.slice(0, MOST_REPORTED).map(reportRow));
}
for (const it of document.querySelectorAll("[data-command]")) it.onclick = async () => {
    const { command, file } = it.dataset, options = ["--slots", state.slots, "--workers", 1];
    if (command === "chart") options.push("--lang", language ? "de" : "en");
    const commands = command === "pcap" ? [["compile", ...options], ["pcap", "--used"]] : [[command, ...options]];
    it.disabled = true;
    const result = await bookDesk.ask("run", { text: state.text, commands });
    it.disabled = false;
    if (result.isCancelled) return;
    if (result.fault || result.status) tell(result.fault || result.says);
    else download(file, result.out);
};
$("a-print").onclick = () => print();
const MOST_PRINTED = 24;
function printedGroup(group) {
    const [from, to] = shownSlots(), lines = group.messages.slice(0, MOST_LINES), axis = $("a-axis").cloneNode(true);
    axis.removeAttribute("id");
    return node("div.card", node("h2", say("chartOf", nameOfGroup(group))),
        node("ol.lines", lines.map((it) => drawLine(it, from, to, 700))),
        node("div.line", node("p", say("load"), node("br"), node("small", fullestText(group))),
            node("div.lane.tall", drawLoad(group, [from, to], true))), node("div.line", node("p"), axis));
}
addEventListener("beforeprint", () => { // on paper all groups of cells stand one below the other
    hideTip();
    if (!state.groups.length || state.fault) return;
    if (state.pane !== "air") showPane("air");
    fill($("a-rest"), state.groups.filter((it) => it !== chosenGroup()).slice(0, MOST_PRINTED).map(printedGroup));
});
addEventListener("afterprint", () => fill($("a-rest")));
begin();
