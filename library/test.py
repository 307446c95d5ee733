#!/usr/bin/env python3
"""Tries libwarnc: what programs in C and in Python get of it, against the program and against tools/gsm.py.

Usage: test.py PROGRAM [RUNS]      RUNS random texts and a quarter as many inputs of tapes; 1,000 if no number is given.
                                   PROGRAM is a built `warnc`

library/lines.c is compiled with dist/libwarnc.a, with a heap of its own that refuses memory where it is asked to. Every
text goes through all calls: its pages have to be the blocks that `warnc page` writes, or its fault that of the command;
the texts of the pages, joined, have to be the text; tapes have to give the table or the fault of `warnc read`, and books
the tapes, the report and the chart that commands write, or the row of their fault, and with tapes the table of `verify`.
Rooms are as large as what comes, an octet smaller, and empty. Memory is refused at each block that a call asks for. The
same is done once more under the sanitizers of addresses and of undefined behaviour, and a part of it under valgrind,
where they are there. Without a compiler of C all of this is skipped, but for Python's calls of dist/libwarnc.so.
"""
import doctest
import os
import random
import shutil
import subprocess
import sys
import tempfile

TOP = os.path.dirname(os.path.dirname(os.path.realpath(__file__)))
sys.dont_write_bytecode = True
sys.path[:0] = [os.path.join(TOP, "tools"), os.path.join(TOP, "bindings", "python")]
import gsm  # noqa: E402
import warnc  # noqa: E402

ID, SERIAL = 4370, 0x0010
STATUS = {why: status for status, why in warnc.WORDS.items()}
SIGNS = {
    "ascii": "abcdefghij klmnopqrstuvwxyz ABC,.!\n", "gsm": gsm.MAIN.replace("\x1b", "").replace("\r", "") + "€^{}[]~|\\",
    "cyrillic": "Жябв漢字 a", "mixed": gsm.MAIN.replace("\x1b", "").replace("\r", "") + "Жя漢字",
    "odd": "abc\r\x01\x7f\x1b\ud7ff\ue000\uffff😀",
}
LENGTHS = (0, 1, 2, 40, 41, 42, 92, 93, 94, 186, 187, 614, 615, 616, 1394, 1395, 1396)
WARNINGS = ("-std=c99", "-Wall", "-Wextra", "-pedantic", "-Werror")


class Differs(Exception):
    """How something isn't as it has to be."""


def digits(octets):
    return bytes(octets).hex() or "-"


class Lines:
    """The program that calls what lines ask for."""

    def __init__(self, *words):
        self.words = words

    def answers(self, lines):
        """Returns the answer to each line, and how many blocks of memory it asked for."""
        lines = list(lines)
        done = subprocess.run(self.words, input="".join(f"{it}\n" for it in lines).encode(), stdout=subprocess.PIPE,
                              stderr=subprocess.STDOUT, check=False)
        said = done.stdout.decode().split("\n")
        asked = [it for it in lines if not it.startswith("memory")]
        if done.returncode != 0 or len(said) != 2 * len(asked) + 1:
            raise Differs(f"{self.words[-1]} ended with {done.returncode}: {done.stdout[-600:]}")
        return [(one.split(" "), int(two.removeprefix("blocks "))) for one, two in zip(said[:-1:2], said[1::2])]


def random_text(rng):
    """Returns the octets of a text; some aren't UTF-8."""
    signs, length = rng.choice(list(SIGNS.values())), rng.choice((*LENGTHS, rng.randrange(1500)))
    octets = bytearray("".join(rng.choice(signs) for _ in range(length)).encode())
    if octets and rng.random() < 0.08:
        octets[rng.randrange(len(octets))] = rng.choice((0x80, 0xFF, 0xC0, 0xED))
    return bytes(octets)


def of_program(program, words, given):
    """Returns what the program writes, or why it writes nothing."""
    done = subprocess.run([program, *words], input=given, capture_output=True, check=False)
    return done.stdout, done.stderr.decode().removeprefix("warnc: ").removesuffix("\n")


def wanted_of_text(program, language, text):
    """Returns the status, the place and the blocks of a text, by the command `page`."""
    words = ["page", "--lang", language, "--id", str(ID), "--scope", "0", "--code", "1", "--update", "0"]
    written, fault = of_program(program, words, text + b"\n")
    if fault.startswith("bad character at "):
        return warnc.CHARACTER, int(fault.split()[-1]), []
    if fault:
        return STATUS[fault], 77, []
    return warnc.OK, 77, [it for it in written.decode().split("\n") if len(it) == 46 and it[0] in "23"]


def wanted_place(text):
    """Returns the status and the place of the first character that GSM 7-bit lacks, by tools/gsm.py."""
    try:
        signs = text.decode()
    except UnicodeDecodeError:
        return [str(warnc.UTF8), "77"]
    # the escape is none of its characters
    place = next((at for at, it in enumerate(signs) if it not in gsm.CODES or it == "\x1b"), None)
    return [str(warnc.GSM), "77"] if place is None else [str(warnc.OK), str(place)]


def rooms_of(octets):
    """Returns rooms for octets, and what has to be answered with each: status, length, and the whole room."""
    size = len(octets)
    rooms = {size: (warnc.OK, octets), size + 3: (warnc.OK, octets + b"\xaa" * 3)}
    rooms.update({it: (warnc.ROOM, b"\xaa" * it) for it in (size - 1, 0) if 0 <= it < size})
    return {room: [str(status), str(size), digits(left)] for room, (status, left) in rooms.items()}


def compare(what, found, wanted):
    if found != wanted:
        raise Differs(f"{what}: wanted {str(wanted)[:300]}, but it was {str(found)[:300]}")


def pages_of(answer):
    """Returns the data coding of an answer to `paginate`, and what its pages hold."""
    return int(answer[2]), [bytes.fromhex(it.split("-")[1]) for it in answer[3:]]


def try_texts(lines, program, rng, runs):
    """Tries texts through all calls; returns how many of them have pages."""
    texts = [(rng.choice((*gsm.WORDS, "xx", "", "EN")), random_text(rng)) for _ in range(runs)]
    asked = [f"paginate {digits(lang.encode())} {digits(text)}" for lang, text in texts]
    paged = lines.answers(asked + [f"first {digits(text)}" for _, text in texts])
    pages, wanted_blocks, good = [], [], 0
    for (lang, text), (answer, _), (place, _) in zip(texts, paged, paged[runs:]):
        status, at, blocks = wanted_of_text(program, lang, text)
        compare(f"paginate {lang} {text[:60]}", answer[:2], [str(status), str(at)])
        compare(f"first {text[:60]}", place, wanted_place(text))
        if status == warnc.OK:
            good += 1
            coding, contents = pages_of(answer)
            pages += [(coding, k + 1, len(contents), it) for k, it in enumerate(contents)]
            compare(f"the pages of {text[:60]}", joined(coding, contents), text.decode())
            wanted_blocks += [" ".join(blocks[4 * k:4 * k + 4]) for k in range(len(contents))]
    made = lines.answers(f"page {ID} {SERIAL} {coding} {number} {total} {digits(content)}"
                         for coding, number, total, content in pages)
    cut = lines.answers(f"cut {answer[1]}" for answer, _ in made)
    compare("blocks", [" ".join(it) for it, _ in cut], wanted_blocks)
    try_page_texts(lines, pages, [it[1] for it, _ in made])
    return good


def joined(coding, contents):
    return "".join(gsm.text_of_content(gsm.alphabet_of(coding), it) for it in contents)


def try_page_texts(lines, pages, made):
    asked, wanted = [], []
    for (coding, _, _, content), page in zip(pages, made):
        for room, answer in rooms_of(joined(coding, [content]).encode()).items():
            asked.append(f"text {page} {room}")
            wanted.append(answer)
    compare("texts of pages", [it for it, _ in lines.answers(asked)], wanted)


def try_numbers(lines):
    """Tries each number and total of a page up to 17, and each data coding; returns how many lines those were."""
    content = gsm.content_of("Stay in!", True)
    numbers = [(number, total) for number in range(18) for total in range(18)]
    found = lines.answers(f"page 1 2 1 {number} {total} {digits(content)}" for number, total in numbers)
    for (number, total), (answer, _) in zip(numbers, found):
        is_good = 1 <= number <= total <= 15
        page = gsm.HEAD.pack(2, 1, 1, 16 * number + total) + content if is_good else b"\xaa" * warnc.PAGE
        compare(f"page {number} of {total}", answer, [str(warnc.OK if is_good else warnc.NUMBER), digits(page)])
    # a page parameter says which page it is; with 0 in either half it is page 1 of 1
    asked = [(coding, parameter) for coding in range(256) for parameter in (0x11, 0x21, 0x12, 0x20, 0x02)]
    found = lines.answers(f"text {digits(gsm.HEAD.pack(2, 1, *it) + content)} 279" for it in asked)
    for (coding, parameter), (answer, _) in zip(asked, found):
        is_read = gsm.alphabet_of(coding) is not None and parameter != 0x21
        compare(f"the text of a page of coding {coding}", answer[0], str(warnc.OK if is_read else warnc.UNREADABLE))
    return len(numbers) + len(asked)


# the types of the blocks of a page of one to three
SHORT = ((0x30,), (0x20, 0x31), (0x20, 0x21, 0x32))


def shortened(rng, octets):
    """Cuts pages of tapes to fewer blocks: the last one that is left gets the type of a last block."""
    octets = bytearray(octets)
    for at in range(gsm.HEADER.size, len(octets) - gsm.SLOT, gsm.SLOT):
        if octets[at] == gsm.TYPES[0] and rng.random() < 0.7:
            kinds = rng.choice(SHORT)
            for place, kind in enumerate((*kinds, *[gsm.IDLE[0]] * (4 - len(kinds)))):
                octets[at + gsm.BLOCK * place] = kind
    return octets


def tapes_for(program):
    """Returns the tapes of the books of examples/."""
    found = []
    for name in sorted(os.listdir(os.path.join(TOP, "examples"))):
        if name.endswith(".csv"):
            with open(os.path.join(TOP, "examples", name), "rb") as it:
                written, fault = of_program(program, ["compile", "--slots", "60"], it.read())
            if not fault and written:
                found.append(written)
    return found


def try_tapes(lines, program, rng, runs):
    """Tries tapes, also cut and spoilt ones; returns how many there were."""
    books, inputs = tapes_for(program), [b""]
    for _ in range(runs):
        octets = shortened(rng, rng.choice(books))
        for _ in range(rng.choice((0, 1, 20))):
            octets[rng.randrange(len(octets))] = rng.randrange(256)
        inputs.append(bytes(octets[:rng.randrange(len(octets) + 1)] if rng.random() < 0.2 else octets))
    asked, wanted = [], []
    for octets in inputs:
        for call, words in (("read", ["read"]), ("short", ["read", "--short"])):
            table, fault = of_program(program, words, octets)
            answers = {0: [str(STATUS[fault]), "77", "-"]} if fault else rooms_of(table)
            asked += [f"{call} {digits(octets)} {room}" for room in answers]
            wanted += answers.values()
    compare("tables", [it for it, _ in lines.answers(asked)], wanted)
    return len(inputs)


# the calls that run a book, and the words of their commands
RUNS = {"compile": ["compile"], "report": ["report"], "full": ["report", "--full"], "chart": ["chart"]}


def books_for():
    """Returns the books of examples/, and one without rows."""
    found = [b""]
    for name in sorted(os.listdir(os.path.join(TOP, "examples"))):
        if name.endswith(".csv"):
            with open(os.path.join(TOP, "examples", name), "rb") as it:
                found.append(it.read())
    return found


def wanted_of_run(program, words, slots, book):
    """Returns rooms for what the program writes of a run, and what has to be answered with each."""
    if slots == 0:
        return {0: [str(warnc.SLOTS), "77", "77", "-"]}
    written, fault = of_program(program, [*words, "--slots", str(slots)], book)
    if fault:
        row = fault.removeprefix("row ").split(":")[0] if fault.startswith("row ") else "0"
        return {2: [str(warnc.BOOK), "77", row, "aaaa"]}
    return {room: [*it[:2], "77", *it[2:]] for room, it in rooms_of(written).items()}


def try_runs(lines, program, rng, runs):
    """Runs books, also cut and spoilt ones; returns how many there were."""
    asked, wanted, books = [], [], books_for()
    for at in range(runs):
        book = bytearray(rng.choice(books))
        for _ in range(rng.choice((0, 0, 1, 3)) if book else 0):
            book[rng.randrange(len(book))] = rng.choice(b"0123456789,-*\nabc\xff")
        book = bytes(book[:rng.randrange(len(book) + 1)] if rng.random() < 0.2 else book)
        slots = rng.choice((0, 1, 8, 60, 300)) if at else 0
        for call, words in RUNS.items():
            answers = wanted_of_run(program, words, slots, book)
            asked += [f"{call} {slots} {digits(book)} {room}" for room in answers]
            wanted += answers.values()
    compare("runs", [it for it, _ in lines.answers(asked)], wanted)
    return runs


# the calls that judge tapes by a book, and the words of their commands
VERDICTS = {"verify": ["verify"], "briefly": ["verify", "--short"]}


def wanted_of_verdict(program, words, slots, book, tapes):
    """Returns rooms for the table that the program writes of tapes and a book, and what has to be answered with each."""
    if slots == 0:
        return {0: [str(warnc.SLOTS), "77", "77", "-"]}
    with tempfile.NamedTemporaryFile() as it:
        it.write(book)
        it.flush()
        table, fault = of_program(program, [*words, "--book", it.name, "--slots", str(slots)], tapes)
    if not table and fault not in STATUS:
        row = fault.removeprefix("row ").split(":")[0] if fault.startswith("row ") else "0"
        return {2: [str(warnc.BOOK), "77", row, "aaaa"]}
    if not table:
        return {1: [str(STATUS[fault]), "77", "77", "aa"]}
    put = str(warnc.DIFFERENCES if fault.startswith("differences: ") else warnc.OK)
    return {room: [put if it[0] == "0" else it[0], it[1], "77", *it[2:]] for room, it in rooms_of(table).items()}


def try_verdicts(lines, program, rng, runs):
    """Judges tapes by books: their own, those of others, cut and spoilt ones; returns how many there were."""
    asked, wanted, books = [], [], books_for()
    for at in range(runs):
        book, slots = rng.choice(books), rng.choice((1, 8, 60)) if at else 0
        other = book if rng.random() < 0.7 else rng.choice(books)
        tapes = of_program(program, ["compile", "--slots", str(slots or 1)], other)[0]
        tapes = shortened(rng, tapes) if rng.random() < 0.3 else bytearray(tapes)
        for _ in range(rng.choice((0, 1, 20)) if tapes else 0):
            tapes[rng.randrange(len(tapes))] = rng.randrange(256)
        tapes = bytes(tapes[:rng.randrange(len(tapes) + 1)] if rng.random() < 0.1 else tapes)
        book = book[:rng.randrange(len(book) + 1)] if rng.random() < 0.1 else book
        for call, words in VERDICTS.items():
            answers = wanted_of_verdict(program, words, slots, book, tapes)
            asked += [f"{call} {slots} {digits(book)} {digits(tapes)} {room}" for room in answers]
            wanted += answers.values()
    compare("verdicts", [it for it, _ in lines.answers(asked)], wanted)
    return runs


def try_memory(lines, program):
    """Refuses memory at each block that a call asks for; returns how many times it was refused."""
    tape = min(tapes_for(program), key=len)
    page = gsm.HEAD.pack(2, 1, 1, 0x11) + gsm.content_of("Stay in [now]!", True)
    calls = {f"paginate {digits(b'en')} {digits(text.encode())}": ["5", "77", "170"]
             for text in ("Stay in!", "a" * 1395, "{€" * 200, "Вода" * 100)}
    calls[f"text {digits(page)} 3"] = ["5", "77", "aaaaaa"]
    calls[f"read {digits(tape)} 3"] = ["5", "77", "aaaaaa"]
    book = b"cell,1,1\nwrite,0,a,4370,0,1,en,2,2,0,*,One\nupdate,1,a,en,2,2,0,*,Two\nstop,2,a,*\n"
    calls |= {f"{it} 4 {digits(book)} 3": ["5", "77", "77", "aaaaaa"] for it in RUNS}
    calls |= {f"{it} 4 {digits(book)} {digits(tape)} 3": ["5", "77", "77", "aaaaaa"] for it in VERDICTS}
    refused = 0
    for call, wanted in calls.items():
        ((_, asked),) = lines.answers([call])
        if asked == 0:
            raise Differs(f"{call[:40]} asks for no memory")
        lines_of_call = [it for number in range(1, asked + 1) for it in (f"memory {number}", call)]
        compare(f"{call[:40]} without memory", [it for it, _ in lines.answers(lines_of_call)], [wanted] * asked)
        refused += asked
    return refused


def try_python(program, rng, runs):
    """Tries the module of Python, and so the shared library; returns how many texts had pages."""
    good = 0
    for _ in range(runs):
        text, lang = random_text(rng), rng.choice(("en", "und", "xx"))
        status, at, blocks = wanted_of_text(program, lang, text)
        try:
            pages = warnc.paginate(text.decode(), lang)
            made = [warnc.page(ID, SERIAL, pages.coding, k + 1, len(pages), it) for k, it in enumerate(pages)]
            compare("Python's blocks", [it.hex() for page in made for it in warnc.cut(page)], blocks)
            compare("Python's texts", "".join(map(warnc.page_text, made)), text.decode())
            good += 1
        except UnicodeDecodeError:
            compare("a text that is no UTF-8", status, warnc.UTF8)
        except warnc.Fault as why:
            compare("Python's fault", (why.status, why.place if status == warnc.CHARACTER else 77), (status, at))
    failed, tried = doctest.testmod(warnc)
    compare("the examples of warnc.py", (failed, tried > 0), (0, True))
    for tapes in tapes_for(program):
        compare("Python's table", warnc.read(tapes), of_program(program, ["read"], tapes)[0].decode())
        cut = bytes(shortened(rng, tapes))
        compare("Python's table", warnc.read(cut, True), of_program(program, ["read", "--short"], cut)[0].decode())
    for book in books_for():
        for words, call in ((["compile"], warnc.compile), (["report"], warnc.report), (["chart"], warnc.chart),
                            (["report", "--full"], lambda book, slots: warnc.report(book, slots, True))):
            written, fault = of_program(program, [*words, "--slots", "60"], book)
            try:
                made = call(book, 60)
                compare("Python's run", made if isinstance(made, bytes) else made.encode(), written)
            except warnc.Fault as why:
                compare("Python's fault", (why.status, f"row {why.place}" in fault), (warnc.BOOK, True))
    return good


def compiled(room, compiler, name, *words):
    """Returns the path of a compiled program, or None if the compiler lacks what these words ask for."""
    made, source = os.path.join(room, name), os.path.join(TOP, "library", "lines.c")
    done = subprocess.run([compiler, *WARNINGS, "-I", os.path.join(TOP, "include"), *words, source,
                           os.path.join(TOP, "dist", "libwarnc.a"), "-o", made], capture_output=True, check=False)
    if done.returncode != 0 and not words[1:]:
        raise Differs(f"{compiler} says: {done.stderr.decode()}")
    return made if done.returncode == 0 else None


def try_c(program, runs):
    """Tries what programs in C get."""
    compiler = shutil.which("gcc") or shutil.which("cc")
    if compiler is None:
        print("library: there is no compiler of C: SKIPPED what programs in C get")
        return
    with tempfile.TemporaryDirectory(prefix="warnc-library-") as room:
        # a stack of 64 kB is enough
        made = compiled(room, compiler, "lines", "-O2")
        lines = Lines("/bin/sh", "-c", 'ulimit -s 64 && exec "$0"', made)
        good = try_texts(lines, program, random.Random(1), runs)
        print(f"library: {runs} texts, {good} with pages; {try_numbers(lines)} pages by their numbers;"
              f" {try_tapes(lines, program, random.Random(2), runs // 4)} inputs of tapes;"
              f" {try_runs(lines, program, random.Random(7), runs // 8)} books;"
              f" {try_verdicts(lines, program, random.Random(9), runs // 8)} books with tapes;"
              f" memory refused {try_memory(lines, program)} times")
        watched = compiled(room, compiler, "watched", "-g", "-fsanitize=address,undefined", "-fno-sanitize-recover")
        if watched is None:
            print("library: the compiler has no sanitizers: SKIPPED them")
        else:
            try_texts(Lines(watched), program, random.Random(3), runs // 4)
            try_tapes(Lines(watched), program, random.Random(4), runs // 16)
            try_runs(Lines(watched), program, random.Random(8), runs // 32)
            try_verdicts(Lines(watched), program, random.Random(10), runs // 32)
            refused = try_memory(Lines(watched), program)
            print(f"library: {runs // 4} texts, {runs // 16} tapes and {refused} refusals under the sanitizers")
        if shutil.which("valgrind") is None:
            print("library: valgrind isn't there: SKIPPED it")
        else:
            checked = Lines("valgrind", "-q", "--error-exitcode=9", "--leak-check=full", lines.words[-1])
            try_texts(checked, program, random.Random(5), runs // 32)
            print(f"library: {runs // 32} texts under valgrind")
        others = [os.path.join(TOP, "library", it) for it in ("bench.c", "plain.c", "heap.c")]
        words = [compiler, *WARNINGS, "-I", os.path.join(TOP, "include"), "-fsyntax-only", *others]
        if subprocess.run(words, check=False).returncode:
            raise Differs("files of library/ aren't plain C")
        plus = shutil.which("g++") or shutil.which("c++")
        header = os.path.join(TOP, "include", "warnc.h")
        if plus and subprocess.run([plus, "-Wall", "-Werror", "-fsyntax-only", "-x", "c++", header], check=False).returncode:
            raise Differs("include/warnc.h isn't C++")


def main(words):
    if words in (["-h"], ["--help"]):
        print(__doc__, end="")
        return 0
    if len(words) not in (1, 2) or not os.access(words[0], os.X_OK) or not all(it.isdigit() for it in words[1:]):
        print(__doc__, end="")
        return 2
    runs = int(words[1]) if len(words) == 2 else 1000
    try:
        try_c(words[0], runs)
        print(f"library: {runs // 4} texts by Python, {try_python(words[0], random.Random(6), runs // 4)} with pages")
    except Differs as why:
        print(f"library: {why}")
        return 1
    return 0


if __name__ == "__main__":
    sys.exit(main(sys.argv[1:]))
