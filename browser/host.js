// In a worker: runs the program as on a command line, with words and octets in, and a status and octets out.
let program = null;
const encode = (text) => new TextEncoder().encode(text);
const decode = (octets) => new TextDecoder("utf-8", { ignoreBOM: true }).decode(octets);

class Exit {
    constructor(status) { this.status = status; }
}

function joined(parts) {
    const whole = new Uint8Array(parts.reduce((sum, part) => sum + part.length, 0));
    let at = 0;
    for (const part of parts) {
        whole.set(part, at);
        at += part.length;
    }
    return whole;
}

// A screen has what was written since the last carriage return. A run draws there how many cells are done, and wipes
// that before it says anything else; `tell` gets each such number once.
function screenOf(tell) {
    let line = "", told = 0;
    return {
        line: () => line,
        write(octets) {
            line = (line + decode(octets)).replace(/^[^]*\r/, "");
            const cells = +(/(\d+) cells done/.exec(line)?.[1] ?? 0);
            if (cells > told) tell(told = cells);
        },
    };
}

// What browser/host.c asks of the page. Numbers of 64 bits come and go as BigInt.
function pageOf(memory, words, input, output, screen) {
    let at = 0;
    return {
        read(to, room) {
            const part = input.subarray(at, at + Math.min(Number(room), input.length - at));
            memory().set(part, Number(to));
            at += part.length;
            return BigInt(part.length);
        },
        write(file, from, count) {
            const octets = memory().slice(Number(from), Number(from) + Number(count));
            if (file === 2) screen.write(octets);
            else output.push(octets);
        },
        words: () => BigInt(words.length),
        word(number, to, room) {
            const word = words[Number(number)];
            if (!word) return -1n;
            memory().set(word.subarray(0, Number(room)), Number(to));
            return word.length > Number(room) ? -2n : BigInt(word.length);
        },
        exit(status) { throw new Exit(status); },
    };
}

// Pages of memory with which a run begins, since Firefox copies all of it each time that it grows: as many as the last
// run had, or as a chart of such an input takes, but 128 MiB at most.
const OCTETS_OF_AN_OCTET = 90, WASM_PAGE = 65536, MOST_AT_FIRST = 2048;
let had = 0;
const pagesFor = ({ length }) => Math.min(MOST_AT_FIRST, Math.max(had, (length * OCTETS_OF_AN_OCTET) / WASM_PAGE));

// Runs the program once, in memory of its own, and returns its status, its output and its line of standard error.
// `tell` gets how many cells of a book are done.
function run(words, input = "", tell = () => {}) {
    const output = [], screen = screenOf(tell), all = ["warnc", ...words.map(String)].map(encode);
    const given = typeof input === "string" ? encode(input) : input;
    let made = null, status = 0;
    const page = pageOf(() => new Uint8Array(made.memory.buffer), all, given, output, screen);
    made = new WebAssembly.Instance(program, { page }).exports;
    const { memory } = made, pages = () => memory.buffer.byteLength / WASM_PAGE;
    memory.grow(BigInt(Math.max(0, Math.ceil(pagesFor(given) - pages()))));
    try {
        status = made.main(0, 0n);
    } catch (end) {
        if (!(end instanceof Exit)) throw end;
        status = end.status;
    }
    had = pages();
    return { status, out: joined(output), says: screen.line().trim().replace(/^warnc: /, "") };
}

const compiled = (packed) => WebAssembly.compileStreaming(unpacked(packed, "application/wasm"));
