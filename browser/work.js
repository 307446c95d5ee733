// The worker: one job at a time, each made of runs of the program.
let tapes = null;
const TEXTS_A_RUN = 2000, HEADER_OCTETS = 8, SLOT_OCTETS = 92;
const tableBy = (words, input) => tableOf(decode(run(words, input).out));

// Returns what `texts` says of each text: its coding, its pages, the room on the last one, and how much of it fits.
function costsOf(texts, lang) {
    const costs = [], rows = texts.map((text, k) => (
        rowText(["write", "0", `t${k}`, "0", "0", "0", lang, "2", "1", "0", "*", text])));
    while (rows.length) {
        const book = `cell,0,0\n${rows.splice(0, TEXTS_A_RUN).join("\n")}\n`;
        costs.push(...tableBy(["texts", "--pages", MOST_PAGES], book));
    }
    return costs;
}

// Returns of each slot of a cell's tape the identifier and serial number of the page that it sends, 0 if it is idle,
// and the page's number and the total.
function channelOf(tape, slots) {
    const air = new Uint32Array(slots), page = new Uint8Array(slots);
    for (const line of decode(run(["read", "--slots"], tape).out).split("\n").slice(1, -1)) {
        const [, , slot, id, serial, number, total] = line.split(",");
        air[slot] = ((id << 16) | parseInt(serial, 16)) >>> 0;
        page[slot] = (number << 4) | total;
    }
    return { air, page };
}

// Returns the texts that an output has, by their names: each comes after a line with its name and its number of octets.
function textsIn(octets) {
    const texts = {};
    for (let at = 0; at < octets.length;) {
        const end = octets.indexOf(10, at), [name, count] = decode(octets.subarray(at, end)).split(" ");
        at = end + 1 + +count;
        texts[name] = decode(octets.subarray(end + 1, at));
    }
    return texts;
}

const jobs = {
    async start({ packed, module }) {
        program = module || await compiled(packed);
        return { module: program };
    },

    // One text: what it costs, and the same text once mended; what each letter costs that the page doesn't know yet;
    // and its pages: the blocks of each, and what a phone shows of it.
    text({ text, mended, letters, lang, id, scope, code, update }) {
        const [cost, other, ...each] = costsOf([text, mended, ...letters], lang);
        const result = { cost, mendedCost: other, letters: letters.map((letter, k) => [letter, each[k]]) };
        if (cost.pages === "" || cost.pages === "0" || +cost.pages > MOST_PAGES) return result;
        const sent = ["--lang", lang, "--id", id, "--scope", scope, "--code", code, "--update", update];
        // one LF at the end isn't part of the text
        return { ...result, pages: tableBy(["page", "--explain", ...sent], `${text}\n`) };
    },

    book({ text, slots }, say) {
        tapes = null;
        const words = ["chart", "--tables", "--slots", slots, "--workers", 1];
        const made = run(words, text, (cells) => say(1, cells));
        if (made.status) return { fault: made.says, faults: tableBy(["check"], text) };
        say(2);
        const book = readBook(text), { report, load, chart } = textsIn(made.out), reported = linesOf(report);
        const groups = groupsOf(chart, reported, linesOf(load), book), fates = fatesOf(reported, book);
        const own = ownRemarks(book);
        return { told: JSON.stringify({ groups, fates, own }) }; // so large a text is passed on faster than its objects
    },

    // What would go unsaid of a book without a fault, and what its texts cost.
    remarks: ({ text, slots }) => (
        tableBy(["check", "--slots", slots], text).filter(({ says }) => !says.startsWith("fullest: "))),
    costs: ({ text }) => tableBy(["texts"], text),

    channel({ text, slots, cell }) {
        const made = tapes ? null : run(["compile", "--slots", slots, "--workers", 1], text);
        if (made?.status) return { fault: made.says };
        tapes ??= made.out;
        const length = HEADER_OCTETS + slots * SLOT_OCTETS;
        return channelOf(tapes.subarray(cell * length, (cell + 1) * length), slots);
    },

    // Runs of the program, each with what the one before it wrote; the last one's status and output.
    run({ text, commands }) {
        let made = { status: 0, out: text };
        for (const words of commands) if (!made.status) made = run(words, made.out);
        return made;
    },
};

async function work(data) {
    let result;
    try {
        result = await jobs[data.job](data, (stage, cells) => postMessage({ number: data.number, stage, cells }));
    } catch (fault) {
        result = { fault: String((fault && fault.message) || fault) };
    }
    postMessage({ number: data.number, result });
}
let last = Promise.resolve();
onmessage = ({ data }) => { last = last.then(() => work(data)); };
