"use strict";
const $ = (id) => document.getElementById(id);
const times = { first: 0, firstBook: 0, text: 0, book: 0 };
let language = /^de/.test(navigator.language) ? 1 : 0;
// What is filled in stands as it is ({0}), or is a time ({t0}), the length of a list ({n0}) or words again ({w0}).
const FILLINGS = { "": (it) => it, t: (it) => timeText(+it), n: (it) => it.split(" ").length, w: (it) => say(it) };
const filled = (text, args) => text.replace(/\{([tnw]?)(\d)\}/g, (_, how, k) => FILLINGS[how](args[k]));
const say = (key, ...args) => filled(WORDS[key] ? WORDS[key][language] : key, args);
const number = (value, digits = 0) => (
    value.toLocaleString(language ? "de" : "en", { minimumFractionDigits: digits, maximumFractionDigits: digits }));

const sayCount = (key, count) => (count === 1 ? say(`${key}1`, count) : say(key, number(count)));

// Returns what `check` says of a field, a row or a cell, in the language of the page.
function saying(says) {
    for (const [form, german, english] of SAYS) {
        const match = form.exec(says), text = language ? german : english;
        if (match && text) return filled(text, match.slice(1));
    }
    return says;
}

// All that is shown is made of nodes and text, never of markup, so no text of a book can become an element.
const kept = (kids) => kids.flat(9).filter((kid) => kid !== null && kid !== undefined && kid !== false);
function node(name, ...kids) { // a tag with classes, what the element is given, if anything, and what is in it
    const [tag, ...classes] = name.split("."), given = kids[0]?.constructor === Object ? kids.shift() : {};
    const isSvg = /^(svg|path|rect)$/.test(tag);
    const made = isSvg ? document.createElementNS("http://www.w3.org/2000/svg", tag) : document.createElement(tag);
    if (classes.length) made.setAttribute("class", classes.join(" "));
    for (const [key, value] of Object.entries(given)) {
        if (value === undefined || value === false || value === null) continue;
        if (key.startsWith("on")) made.addEventListener(key.slice(2), value);
        else if (key === "css") for (const [one, what] of Object.entries(value)) made.style.setProperty(one, what);
        else if (key in made && !isSvg && key !== "role") made[key] = value;
        else made.setAttribute(key, value === true ? "" : value);
    }
    made.append(...kept(kids));
    return made;
}
const within = (value, least, most) => Math.max(least, Math.min(most, value));
function place(element, left, top) { // over the page, within the window
    element.style.left = `${within(left, 8, innerWidth - element.offsetWidth - 8)}px`;
    element.style.top = `${within(top, 8, innerHeight - element.offsetHeight - 8)}px`;
}
const fill = (element, ...kids) => element.replaceChildren(...kept(kids));
const button = (text, onclick, className = "small") => node("button", { type: "button", className, onclick }, text);

// Of a list of buttons one is in the tab order; arrows, Home and End move within it.
function rove(list, selector) {
    const all = [...list.querySelectorAll(selector)];
    const choose = (k) => {
        const one = all[within(k, 0, all.length - 1)];
        all.forEach((it) => { it.tabIndex = it === one ? 0 : -1; });
        return one;
    };
    choose(all.findIndex((it) => it.getAttribute("aria-pressed") === "true"));
    list.onkeydown = (event) => {
        const k = all.indexOf(event.target.closest(selector)), last = all.length - 1;
        const steps = { ArrowDown: k + 1, ArrowRight: k + 1, ArrowUp: k - 1, ArrowLeft: k - 1, Home: 0, End: last };
        const to = steps[event.key];
        if (k < 0 || to === undefined) return;
        event.preventDefault();
        choose(to).focus();
    };
}

// Times: slots are the program's unit, h:mm:ss is the person's. With a clock for slot 0 they are times of the day.
const DAY = 86400;
const two = (value) => String(value).padStart(2, "0");
function startOfClock() {
    const [hours, minutes] = state.clock ? state.clock.split(":") : [0, 0];
    return hours * 3600 + minutes * 60;
}
function timeText(slot, byClock = true) {
    let seconds = Math.round(slot * SLOT) + (byClock ? startOfClock() : 0), days = "";
    if (byClock && state.clock && seconds >= DAY) {
        days = `+${Math.floor(seconds / DAY)} `;
        seconds %= DAY;
    }
    return `${days}${Math.floor(seconds / 3600)}:${two(Math.floor(seconds / 60) % 60)}:${two(seconds % 60)}`;
}
function spanText(slots) { // of a period, in the shortest true form: to a tenth below ten seconds
    const seconds = slots * SLOT, minutes = seconds / 60;
    if (seconds < 59.5) return `${number(seconds, seconds < 10 ? 1 : 0)} s`;
    if (seconds >= 3570) return timeText(slots, false);
    return `${number(minutes, Math.abs(minutes - Math.round(minutes)) < 0.04 ? 0 : 1)} min`;
}
function slotsOf(text, byClock) { // 956, 0:30:00, 30min, 90s, 2h; rounded up, so never too early; null if it is no time
    const given = text.trim().toLowerCase();
    if (/^\d{1,5}$/.test(given)) return +given;
    const time = /^(\d+):(\d\d)(?::(\d\d))?$/.exec(given);
    const span = /^(\d+(?:[.,]\d+)?)\s*(s|sec|sek|m|min|h|std)\.?$/.exec(given);
    if (!time && !span) return null;
    let seconds = time ? time[1] * 3600 + time[2] * 60 + +(time[3] || 0) : parseFloat(span[1].replace(",", "."));
    if (span) seconds *= { s: 1, sec: 1, sek: 1, m: 60, min: 60, h: 3600, std: 3600 }[span[2]];
    if (time && byClock && state.clock) seconds = (seconds - startOfClock() + DAY) % DAY;
    return Math.ceil(seconds / SLOT - 1e-6);
}

// The identifier of the same warning in the first language, and its name.
function baseOf(id) {
    if (IDENTIFIERS[id]) return id;
    if (id === 4397 || id === 4399) return id - 1;
    return IDENTIFIERS[id - MORE] ? id - MORE : 0;
}
const additional = (base) => (base === 4396 || base === 4398 ? base + 1 : base + MORE);
function nameOfId(id) {
    const base = baseOf(id);
    if (base) return IDENTIFIERS[base][language] + (base === id ? "" : ` · ${say("more")}`);
    return id >= 4352 && id <= 4359 ? "ETWS" : say("otherId");
}

// A desk is a worker; its jobs are done one after another. Cancelling ends the worker and starts another one with the
// same module, so nothing is compiled twice.
class Desk {
    jobs = new Map();
    count = 0;
    constructor() { this.open(); }

    open() {
        this.worker = workers.pop() || new Worker(workerUrl);
        this.worker.onmessage = ({ data: { number, stage, cells, result } }) => {
            const job = this.jobs.get(number);
            if (stage) job?.tell?.(stage, cells);
            else if (this.jobs.delete(number)) job.done(result);
        };
    }

    ask(job, data, tell) {
        return new Promise((done) => {
            this.jobs.set(++this.count, { done, tell });
            this.worker.postMessage({ ...data, number: this.count, job });
        });
    }

    cancel() {
        this.worker.terminate();
        for (const job of this.jobs.values()) job.done({ isCancelled: true });
        this.jobs.clear();
        this.open();
        return this.ask("start", { module: Desk.module });
    }
}
const textDesk = new Desk(), bookDesk = new Desk();

// The state: the book is its text, of which table and CSV are two views; `done` is the text of the last good book.
const state = {
    text: "", book: readBook(""), slots: 9600, clock: "", fault: "", faults: [],
    groups: [], fates: [], own: [], remarks: [], costs: [], done: "", past: [], future: [],
    pane: "text", row: 0, at: 0, cell: "", zoom: null, air: null,
};
const MOST_UNDO = 100, ONE_TYPING = 1200;

// Keeps the book in the browser's own storage, if that is wished, or no longer.
function keepBook() {
    try {
        for (const [name, value] of [["warnc.book", state.text], ["warnc.slots", state.slots]]) {
            if ($("b-keep").checked) localStorage.setItem(name, value);
            else localStorage.removeItem(name);
        }
    } catch {
        $("b-keep").checked = false;
    }
}

// Takes a text for the book. Typing within 1.2 s is one step of undo.
function setBook(text, why = "edit") {
    if (text === state.text && why !== "load") return;
    const last = state.past.at(-1), now = performance.now();
    if (why !== "undo") {
        const goesOn = why === "typing" && last && last.why === "typing" && now - last.when < ONE_TYPING;
        if (!goesOn) state.past.push({ text: state.text, why });
        state.past.at(-1).when = now;
        if (state.past.length > MOST_UNDO) state.past.shift();
        state.future = [];
    }
    state.text = text;
    state.book = readBook(text);
    if ($("b-keep").checked) keepBook();
    showBook();
    compute();
}
function undo(isRedo) {
    const [from, to] = isRedo ? [state.future, state.past] : [state.past, state.future], step = from.pop();
    if (!step) return;
    to.push({ text: state.text, why: "edit", when: 0 });
    setBook(step.text, "undo");
    refreshText();
}

// Computing the book: the latest one wins; what is under way is left to end if it is young, and ended if not.
const YOUNG = 800, QUIET = 300, LONG_BOOK = 1e5;
let wanted = 0, under = 0, since = 0, timer = 0, isAskingMore = false;
function compute() {
    clearTimeout(timer);
    wanted++;
    timer = setTimeout(work, state.text.length > LONG_BOOK ? 250 : 60);
}
async function work() {
    if (!Desk.module || (under && performance.now() - since <= YOUNG)) return;
    // nobody waits for what would go unsaid of an older book
    if (under || (isAskingMore && times.book > QUIET)) await stop(false);
    const own = under = wanted, began = since = performance.now(), { text, slots } = state;
    showBusy(1);
    const result = await bookDesk.ask("book", { text, slots }, showBusy);
    if (result.isCancelled || own !== under) return;
    showIdle();
    under = 0;
    times.book = performance.now() - began;
    times.firstBook ||= performance.now() - opened;
    if (own !== wanted) work();
    const { fault = "", faults = [], told } = result;
    Object.assign(state, { fault, faults }, fault ? {} : { ...JSON.parse(told), air: null, done: text });
    showState();
    showResults();
    showAir();
    if (!fault && own === wanted) askMore(text, slots);
}
async function askMore(text, slots) { // once it is shown what becomes of a book: what would go unsaid, what texts cost
    const own = wanted, answers = {};
    isAskingMore = true;
    showBusy(3);
    for (const job of ["remarks", "costs"]) {
        if (own === wanted) answers[job] = await bookDesk.ask(job, { text, slots });
    }
    isAskingMore = false;
    if (own !== wanted || Object.values(answers).some((it) => it.isCancelled)) return;
    showIdle();
    if (Object.values(answers).every(Array.isArray)) Object.assign(state, answers);
    showState();
    showResults();
}
async function stop(isTold = true) {
    const started = bookDesk.cancel();
    under = 0;
    showIdle();
    await started;
    if (!isTold) return;
    clearTimeout(timer);
    tell(say("cancelled"), false, button(say("again"), compute));
}

// That something is under way, and how far it is, is shown after 0.3 s: the stage, and how many cells are done in it.
let busyTimer = 0, tellTimer = 0;
function showBusy(stage, done = 0) {
    const cells = state.book.cells.length, isLate = $("busy").hidden;
    busyTimer ||= setTimeout(() => { $("busy").hidden = false; }, QUIET);
    $("bar").value = stage - 1 + (done && Math.min(1, done / cells));
    const words = `${say("working")}: ${say(`stage${stage}`)}`;
    tell(done ? `${words}, ${say("cellsDone", number(done), number(cells))}` : words, isLate);
}
function showIdle() {
    busyTimer = clearTimeout(busyTimer);
    $("busy").hidden = true;
}
function tell(text, isLate, button) {
    clearTimeout(tellTimer);
    const now = () => fill($("state"), text, button);
    if (isLate) tellTimer = setTimeout(now, QUIET);
    else now();
}
// All that is remarked. That a cell gets nothing is no news where nothing is ordered.
const allRemarks = () => [...state.own, ...state.remarks.filter((it) => it.row || state.book.orders.length)];
const isRefusal = ({ says }) => /^(refused|past)/.test(says);
function showBadge(id, text, isBad) {
    $(id).hidden = !text;
    $(id).textContent = text;
    $(id).classList.toggle("bad", isBad);
}
function showState() {
    const { fault, faults, book } = state, remarks = fault ? [] : allRemarks();
    const places = (list) => new Set(list.map((it) => +it.row || it.cell)).size;
    const refused = places(remarks.filter(isRefusal)), odd = places(remarks.filter((it) => !isRefusal(it)));
    clearTimeout(tellTimer);
    if (fault) {
        const words = faults.length ? sayCount("faulty", faults.length) : say("faultyBook");
        fill($("state"), node("b.badtext", `✕ ${words}`));
    } else {
        fill($("state"), node("span.oktext", "✓ "), say("good", number(book.rows.length), book.cells.length),
            refused ? node("b.badtext", ` · ✕\u00a0${say("nRefused", number(refused))}`) : null,
            odd ? node("b.warntext", ` · !\u00a0${sayCount("nOdd", odd)}`) : null);
    }
    showBadge("n-book", fault ? (faults.length ? number(faults.length) : "!") : odd ? number(odd) : "", !!fault);
    showBadge("n-air", refused ? number(refused) : "", true);
    showSpeed();
}
function showSpeed() {
    $("speed").textContent = say("speed", number(times.first), number(times.text), number(times.book));
}

const PANES = ["text", "book", "air"];
function showPane(name, isFocused) {
    state.pane = name;
    for (const pane of PANES) {
        $(`pane-${pane}`).hidden = pane !== name;
        $(`tab-${pane}`).setAttribute("aria-selected", pane === name);
        $(`tab-${pane}`).tabIndex = pane === name ? 0 : -1;
    }
    if (isFocused) $(`tab-${name}`).focus();
    ({ text: refreshText, book: showBook, air: showAir })[name]();
    hideTip();
}

function setWords() {
    document.documentElement.lang = language ? "de" : "en";
    document.title = `warnc · ${say("title")}`;
    for (const [name, attribute] of [["s", "textContent"], ["l", "ariaLabel"], ["t", "title"], ["p", "placeholder"]]) {
        for (const it of document.querySelectorAll(`[data-${name}]`)) it[attribute] = say(it.dataset[name]);
    }
    setupText();
    showState();
    showPane(state.pane);
}

// What the address asks for, as #lang=de&pane=air&theme=dark: for tests and pictures.
function takeAddress() {
    const asked = new URLSearchParams(location.hash.slice(1));
    if (asked.has("lang")) language = asked.get("lang") === "de" ? 1 : 0;
    $("p-lang").value = language;
    $("p-theme").value = document.documentElement.dataset.theme = asked.get("theme") || "";
    if (PANES.includes(asked.get("pane"))) state.pane = asked.get("pane");
}
function takeKept() {
    try {
        const text = localStorage.getItem("warnc.book");
        $("b-keep").checked = text !== null;
        if (text !== null) state.slots = +localStorage.getItem("warnc.slots") || state.slots;
        return text;
    } catch {
        return null;
    }
}
async function begin() {
    takeAddress();
    state.text = takeKept() ?? $("flood").textContent;
    state.book = readBook(state.text);
    setWords();
    if (state.pane !== "text") refreshText();
    tell(say("starting"));
    const { module, fault } = await started;
    if (fault) {
        tell(say("cannotRun", fault));
        return;
    }
    Desk.module = module;
    bookDesk.ask("start", { module });
    wanted++;
    work();
    const version = await textDesk.ask("run", { text: "", commands: [["--version"]] });
    $("version").textContent = new TextDecoder().decode(version.out).trim().replace("\n", " · ");
}

$("p-lang").onchange = () => {
    language = +$("p-lang").value;
    setWords();
};
$("p-theme").onchange = () => { document.documentElement.dataset.theme = $("p-theme").value; };
$("p-keys").onclick = () => $("help").showModal();
$("cancel").onclick = () => stop();
for (const tab of $("tabs").children) {
    tab.onclick = () => showPane(tab.dataset.pane);
    tab.onkeydown = (event) => {
        const step = { ArrowRight: 1, ArrowLeft: PANES.length - 1 }[event.key];
        if (!step) return;
        event.preventDefault();
        showPane(PANES[(PANES.indexOf(tab.dataset.pane) + step) % PANES.length], true);
    };
}

// Keys of the whole page. Alt+1 and Ctrl+1 belong to browsers. In a field its own undo comes first, but for the two
// texts that are the book's.
const AIR_KEYS = { "+": "z-in", "-": "z-out", 0: "z-all", ",": "z-prev", ".": "z-next" };
function actionOf(event) {
    const { target, key } = event, isControl = (event.ctrlKey || event.metaKey) && !event.altKey;
    const isTyping = /^(TEXTAREA|INPUT|SELECT)$/.test(target.tagName) && target.type !== "range";
    const isOfBook = target.id === "b-csv" || (target.id === "t-text" && state.row);
    if (event.altKey && event.shiftKey && /^Digit[123]$/.test(event.code)) {
        return () => showPane(PANES[event.code[5] - 1], true);
    }
    if (isControl && key === "o") return () => $("b-file").click();
    if (isControl && key === "s") return () => $("b-save").click();
    if (isControl && /^[zy]$/i.test(key) && (!isTyping || isOfBook)) return () => undo(key === "y" || event.shiftKey);
    if (isTyping || isControl || event.altKey) return null;
    if (key === "?") return () => $("help").showModal();
    return state.pane === "air" && AIR_KEYS[key] ? () => $(AIR_KEYS[key]).click() : null;
}
addEventListener("keydown", (event) => {
    if (event.key === "Escape") hideTip();
    const action = actionOf(event);
    if (!action) return;
    event.preventDefault();
    action();
});
