// The pane "Text". What a text costs, and what each letter costs, is asked of the program; a letter is asked once.
const SEPTETS = 93, UNITS = 41, A_MINUTE = 32; // septets and units of a page, slots of a draft's period
const letters = new Map();

// What can be written for a sign without changing a word.
const MENDS = { '"': "“”„‟«»″", "'": "‹›‘’‚‛′´`", "-": "–—‐‑−•·", "...": "…", " ": "\t", "": "\r" };
const MENDED = new Map(Object.entries(MENDS).flatMap(([to, signs]) => [...signs].map((sign) => [sign, to])));
const NAMES = {
    "\u00a0": "NBSP", "\u202f": "NNBSP", "\u2009": "THIN", "\u200b": "ZWSP", "\u200c": "ZWNJ", "\u200d": "ZWJ",
    "\u00ad": "SHY", "\ufeff": "BOM", "\u200e": "LRM", "\u200f": "RLM", "\u202e": "RLO", "\u202d": "LRO",
    "\u202c": "PDF", "\t": "TAB",
};
const DIRECTION = /[\u200e\u200f\u202a-\u202e\u2066-\u2069]/;
function insteadOf(piece) { // null if there is nothing plain
    if (MENDED.has(piece)) return MENDED.get(piece);
    if (/\p{Zs}/u.test(piece)) return " ";
    if (/\p{Cf}/u.test(piece) || /[\u0000-\u001f]/.test(piece) || piece.codePointAt(0) > 0xffff) return "";
    const composed = piece.normalize("NFC");
    return piece.length > 1 && [...composed].length === 1 ? composed : null;
}

// A text in pieces: a letter with its combining marks is one, so that decomposed letters are found and composed. A
// letter that the program wasn't asked for yet counts as plain.
const PIECE = /[^\p{M}]\p{M}+|[^]/gu;
const piecesOf = (text) => [...text.matchAll(PIECE)].map((match) => ({ text: match[0], at: match.index }));
const isPlain = (piece) => [...piece].every((letter) => letters.get(letter)?.isPlain ?? true);
const isBad = (piece) => [...piece].some((letter) => letters.get(letter)?.isBad);
const codesOf = (piece) => [...piece].map((sign) => (
    `U+${sign.codePointAt(0).toString(16).toUpperCase().padStart(4, "0")}`)).join(" ");

function learn([letter, { coding, pages, room }]) {
    const isOfGsm = coding !== "UCS-2";
    letters.set(letter, { isPlain: isOfGsm, isBad: pages === "", cost: isOfGsm ? SEPTETS - room : 1 });
}

const draft = {
    id: "4370", scope: "0", code: "1", lang: "en",
    text: "Flood warning for the harbour. Leave the lower town by 18:00 and go to the school on the hill. "
        + "Bring medicines – and keep this phone on.",
};
let mended = "", isAsking = false, asksAgain = false, factsTimer = 0;

function setupText() {
    const names = new Intl.DisplayNames([language ? "de" : "en"], { type: "language" });
    const nameOf = (word) => `${word === "und" ? say("und") : names.of(word)} (${word})`;
    const words = LANGUAGES.map((word) => [word, nameOf(word)]).sort((one, other) => one[1].localeCompare(other[1]));
    fill($("t-lang"), words.map(([value, text]) => node("option", { value }, text)));
    fill($("t-kind"), ORDER_OF_KINDS.map((id) => node("option", { value: id }, `${id} · ${IDENTIFIERS[id][language]}`)),
        node("option", { value: "" }, say("otherId")));
}
const hasText = (order) => !!COLUMNS[order.verb]?.includes("text");
const currentOrder = () => (state.row ? state.book.orders.find((it) => it.row === state.row && hasText(it)) : null);

// Shows the chosen row, or the draft, in the fields.
const MOST_CHOICES = 500;
function refreshText() {
    const order = currentOrder(), shown = order || draft, isFixed = shown.verb === "update", base = baseOf(+shown.id);
    if (!order) state.row = 0;
    const choices = state.book.orders.filter(hasText).filter((it, k) => k < MOST_CHOICES || it.row === state.row);
    fill($("t-row"), node("option", { value: 0 }, say("draft")), choices.map((it) => node("option", { value: it.row },
        `${say("c_row")} ${it.row} · ${say(it.verb)} · ${it.name} · ${it.text.slice(0, 44)}`)));
    $("t-row").value = state.row;
    for (const box of [$("t-id"), $("t-code")]) {
        if (document.activeElement !== box) box.value = shown[box.id.slice(2)] ?? "";
    }
    $("t-kind").value = base || "";
    $("t-more").checked = base !== 0 && base !== +shown.id;
    $("t-more").disabled = isFixed || base === 0;
    $("t-lang").value = shown.lang;
    $("t-scope").value = shown.scope;
    for (const name of ["id", "kind", "scope", "code"]) $(`t-${name}`).disabled = isFixed;
    if ($("t-text").value !== shown.text) $("t-text").value = shown.text;
    $("t-add").hidden = !!state.row;
    $("t-show").hidden = !state.row;
    judgeText();
}

// Takes what the fields have: into the row, or into the draft.
function takeText(isTyped) {
    const order = currentOrder(), given = {};
    for (const name of ["id", "scope", "code", "lang", "text"]) given[name] = $(`t-${name}`).value;
    // what a row has and a list lacks stays
    for (const name of ["scope", "lang"]) given[name] ||= (order || draft)[name];
    if (order) editFields(order.row, given, isTyped ? "typing" : "edit");
    else Object.assign(draft, given);
    judgeText();
}
function judgeText() {
    markText();
    askText();
}

// Returns the pieces of a text that GSM 7-bit lacks, each once, and the nodes that mark them: those that can be written
// otherwise, those that no page carries, and letters of a language, of which a word is one mark.
function foreignOf(text) {
    if ([...new Set(text)].every(isPlain)) return { found: [], nodes: [text] };
    const found = new Map(), nodes = [];
    let plain = "", word = null;
    for (const { text: piece, at } of piecesOf(text)) {
        if (isPlain(piece)) {
            plain += piece;
            word = null;
            continue;
        }
        const made = { text: piece, at, count: 0, to: insteadOf(piece), isBad: isBad(piece) };
        const one = found.get(piece) || found.set(piece, made).get(piece);
        const className = one.isBad ? "bad" : one.to !== null ? "mend" : "";
        one.count++;
        if (word && className === "") {
            word.firstChild.data += piece;
            continue;
        }
        const mark = node("mark", { className }, piece);
        nodes.push(plain, mark);
        plain = "";
        word = className === "" ? mark : null;
    }
    return { found: [...found.values()], nodes: [...nodes, plain] };
}
const withMends = (text, mends) => {
    const to = new Map(mends.map((it) => [it.text, it.to]));
    return piecesOf(text).map((piece) => to.get(piece.text) ?? piece.text).join("");
};

function glyph(one) {
    const shown = NAMES[one.text] || (/\p{C}|\p{Zs}/u.test(one.text) ? codesOf(one.text) : one.text);
    return node("span", { className: one.isBad ? "glyph bad" : "glyph", title: codesOf(one.text) },
        node("bdi", shown), one.to !== null ? node("small", codesOf(one.text)) : null);
}
function mendItem(one) {
    const what = one.to === "" ? say("removeIt") : say("replaceWith", one.to === " " ? say("space") : one.to);
    const find = () => {
        $("t-text").focus();
        $("t-text").setSelectionRange(one.at, one.at + one.text.length);
    };
    const mend = () => replaceText(withMends($("t-text").value, [one]));
    return node("li", glyph(one), one.count > 1 ? node("span", `×${one.count}`) : null,
        button(what, mend), button(say("findIt"), find, "small quiet"));
}

// Marks the text, and lists below it what can be mended. Marks of direction are offered singly only, as a text from
// right to left may need them.
const MOST_MENDS = 12, MOST_LETTERS = 24;
function markText() {
    const text = $("t-text").value, { found, nodes } = foreignOf(text);
    fill($("t-back"), nodes, "\n\u200b");
    const mends = found.filter((one) => one.to !== null), all = mends.filter((one) => !DIRECTION.test(one.text));
    const others = found.filter((one) => one.to === null), sum = (list) => list.reduce((of, one) => of + one.count, 0);
    const kept = node("li.kept", others.slice(0, MOST_LETTERS).map(glyph), node("span", say("foreign")));
    mended = all.length ? withMends(text, all) : text;
    $("t-force").hidden = !found.length;
    $("t-all").hidden = sum(all) < 2;
    $("t-all").textContent = say("replaceAll", sum(all));
    $("t-all").onclick = () => replaceText(withMends($("t-text").value, all));
    $("t-why").dataset.count = sayCount("forced", sum(found));
    fill($("t-list"), mends.slice(0, MOST_MENDS).map(mendItem), others.length ? kept : null);
}
function replaceText(to) { // by the browser's own editing, so that its undo knows it
    $("t-text").focus();
    $("t-text").select();
    if (document.execCommand("insertText", false, to)) return;
    $("t-text").value = to;
    takeText();
}

async function askText() { // the latest text wins; the first is asked before the program has started
    asksAgain = isAsking;
    if (isAsking) return;
    isAsking = true;
    const order = currentOrder() || draft, began = performance.now(), text = $("t-text").value, asked = mended;
    const isGood = isNumber(String(order.id), "id") && isNumber(String(order.code), "code");
    const result = await textDesk.ask("text", {
        text, mended, letters: [...new Set(text + mended)].filter((letter) => !letters.has(letter)),
        lang: $("t-lang").value || "und", scope: order.scope || 0, id: isGood ? order.id : 0,
        code: isGood ? order.code : 0, update: order.update || 0,
    });
    times.text = performance.now() - began;
    times.first ||= performance.now() - opened;
    showSpeed();
    isAsking = false;
    if (result.fault) {
        if (Desk.module) tell(result.fault);
        return;
    }
    result.letters.forEach(learn);
    if (result.letters.length) markText();
    if (!asksAgain) showText(result, text);
    if (asksAgain || mended !== asked) await askText();
}

function fact(key, value, mark, ...notes) {
    const shown = notes.filter(Boolean).map((note) => (typeof note === "string" ? node("small", note) : note));
    return node("div", { className: mark }, node("dt", say(key)), node("dd", node("b", value), shown));
}
function showFacts(cost, mendedCost) {
    const isUcs = cost.coding === "UCS-2", room = isUcs ? UNITS : SEPTETS, pages = +cost.pages;
    const isSendable = pages > 0 && pages <= MOST_PAGES, isDear = isUcs && mendedCost.coding !== "UCS-2";
    const order = currentOrder(), every = order && isNumber(order.period, "period") ? +order.period : A_MINUTE;
    const pips = node("span", { className: "pips", "aria-hidden": "true" },
        [...Array(MOST_PAGES)].map((_, k) => node("i", { className: k < pages ? "on" : "" })));
    const none = (key) => fact(key, "–", "");
    fill($("t-facts"),
        pages ? fact("alphabet", cost.coding, isDear ? "warn" : "", say("perPage", room)) : none("alphabet"),
        pages ? fact("pages", number(pages), isSendable ? "" : "bad", say("ofPages"), pips) : none("pages"),
        isSendable ? fact("left", cost.room, "", say("leftPage"),
            say("leftAll", number(+cost.room + (MOST_PAGES - pages) * room))) : none("left"),
        isSendable ? fact("channel", say("seconds", number(pages * SLOT, 1)), "", say("perBroadcast"),
            say("share", number((100 * pages) / every, 1), spanText(every))) : none("channel"));
}
function showTextFault(cost, text) {
    const bad = [...text].find(isBad), isLong = +cost.pages > MOST_PAGES, box = $("t-fault");
    box.hidden = bad === undefined && !isLong;
    if (bad !== undefined) fill(box, say("badSign", `${NAMES[bad] || bad} (${codesOf(bad)})`));
    else if (isLong) {
        const cut = () => replaceText([...text].slice(0, +cost.fits).join(""));
        fill(box, say("tooLong", number(+cost.pages), number(+cost.fits), number(+cost.characters)), " ",
            button(say("cut"), cut));
    }
}
function showPages(result) {
    const isUcs = result.cost.coding === "UCS-2", room = isUcs ? UNITS : SEPTETS, { pages } = result;
    const costOf = (letter) => (isUcs ? 1 : letters.get(letter)?.cost ?? 1);
    const usedOf = ({ text }) => [...text].reduce((sum, letter) => sum + costOf(letter), 0);
    fill($("t-pages"), pages.map((page, k) => node("li.card-phone",
        node("header", node("span", say("page", k + 1, pages.length)), node("span", say("used", usedOf(page), room))),
        node("progress", { max: room, value: usedOf(page), "aria-hidden": "true" }),
        node("p", { dir: "auto" }, page.text))));
    $("t-pages").setAttribute("aria-label", nameOfId(+(currentOrder() || draft).id));
    $("t-octets").textContent = `${say("blocks", number(pages.length * 4 * 23))} · ${pages[0].serial}`;
    const blocksOf = (page) => [1, 2, 3, 4].map((k) => page[`block_${k}`].replace(/(..)/g, "$1 ")).join("\n");
    const lines = pages.map((page, k) => `${say("page", k + 1, pages.length)}\n${blocksOf(page)}`);
    $("t-blocks").textContent = lines.join("\n\n");
}
function showText(result, text) {
    const { cost, mendedCost } = result, why = $("t-why"), pages = +cost.pages, fewer = +mendedCost.pages;
    showFacts(cost, mendedCost);
    showTextFault(cost, text);
    const costs = fewer && fewer < pages ? `${say("costsMore", pages, fewer)} ` : "";
    why.textContent = `${costs}${why.dataset.count}.`;
    $("t-joined").hidden = !(result.pages?.length > 1);
    if (result.pages) {
        showPages(result);
    } else {
        fill($("t-pages"), text ? null : node("li.none", say("noText")));
        $("t-blocks").textContent = "";
        $("t-octets").textContent = say("blocks", 0);
    }
    clearTimeout(factsTimer); // to a screen reader when the hands rest
    factsTimer = setTimeout(() => {
        const left = `${cost.room} ${say("leftPage")}`;
        $("t-say").textContent = `${say("alphabet")} ${cost.coding}, ${say("pages")} ${pages}, ${left}`;
    }, 900);
}

$("t-text").oninput = () => takeText(true);
for (const name of ["scope", "lang", "code", "id"]) $(`t-${name}`).oninput = () => {
    takeText(true);
    if (name === "id") refreshText();
};
$("t-kind").onchange = $("t-more").onchange = () => {
    const base = +$("t-kind").value;
    if (base) $("t-id").value = $("t-more").checked ? additional(base) : base;
    takeText();
    refreshText();
};
$("t-row").onchange = () => {
    state.row = +$("t-row").value;
    refreshText();
};
$("t-show").onclick = () => {
    showPane("book");
    selectRow(state.row, "text");
};
$("t-add").onclick = () => { // adds the draft to the book
    const { id, scope, code, lang, text } = draft, { names, rows } = state.book;
    const name = names.has(`alert-${lang}`) ? freshName(`alert-${lang}`) : `alert-${lang}`;
    const own = ["write", "0", name, id, scope, freshCode(id, scope, +code), lang];
    addRows([[...own, "2", String(A_MINUTE), "0", "*", text]], rows.length);
    state.row = state.book.rows.length;
    refreshText();
};
