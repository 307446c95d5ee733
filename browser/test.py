#!/usr/bin/env python3
"""Tries dist/warnc.html in a headless Chromium, and in Firefox if that is there, against the program itself.

Usage: test.py PROGRAM [BOOKS]      tries it with that number of random books, 200 if it isn't given. PROGRAM is the
                                    warnc of which the page is. Where a browser isn't there a line says so
       test.py --pictures FOLDER    writes pictures of the panes: wide and narrow, by day and by night; for docs those
                                    of the documents alone, docs/page-text.png, page-book.png and page-air.png
       test.py --times PROGRAM      measures how long answers take
       test.py --help               prints this

CHROMIUM and FIREFOX name the browsers; else chromium, chromium-browser or google-chrome, and firefox or firefox-esr
are taken.
"""
import base64
import csv
import io
import json
import os
import random
import statistics
import subprocess
import sys
import time

sys.dont_write_bytecode = True
TOP = os.path.dirname(os.path.dirname(os.path.realpath(__file__)))
sys.path.insert(0, os.path.join(TOP, "tools"))
import books  # noqa: E402
import browser  # noqa: E402
import devtools  # noqa: E402
import gsm  # noqa: E402
import mistakes  # noqa: E402
import release  # noqa: E402
import texts_reference  # noqa: E402
from devtools import ALT, CONTROL, SHIFT, Chromium  # noqa: E402

READY = "times.book && !under && !isAskingMore && times.text && !isAsking"
HOSTILE = (
    "<script>document.title='x'</script>", "</script><img src=x onerror=alert(1)>", "\"quoted\" 'and' \"\"",
    "\u202eevil\u202c rtl", "אזהרה 12 !", "zero\u200bwidth\u200d", "a,b;c|d{}", "&amp;&lt;", "]]>", "-->",
    "$&$1{{style}}", "line\nbreak", "é" * 50, "=1+1", " x ", "Stay in!", "Вода " * 30)
SPOILT = ("sell,1,1", "cell,1", "write,0", "stop,x,a,*", "write,0,z,1,1,1,xx,1,1,0,*,a",
          "write,0,z,1,1,1,en,1,1,0,*,a\tb")
COMMANDS = ("report", "chart", "compile", "check", "texts")
PAGE = "page --lang en --id 4370 --scope 0 --code 1 --update 0".split()
WIDTHS = (320, 390, 768, 1280, 1920)


def ran(program, words, given):
    """Returns the status, the output and the fault line of the program."""
    done = subprocess.run([program, *map(str, words)], input=given, capture_output=True, check=False)
    return done.returncode, done.stdout, done.stderr.decode().strip().removeprefix("warnc: ")


def in_page(page, commands, given):
    """Returns what the page's program makes of it: each command has what the one before it wrote."""
    text = json.dumps(given.decode())
    said = page.run(f"""
        const result = await bookDesk.ask("run", {{ text: {text}, commands: {json.dumps(commands)} }});
        let octets = "";
        for (const octet of result.out || []) octets += String.fromCharCode(octet);
        return [result.status, btoa(octets), result.says ?? result.fault];""")
    return said[0], base64.b64decode(said[1]), said[2]


def load(page, text, slots=None):
    """Gives the page a book, and waits until it is computed."""
    slots = f"state.slots = {slots};" if slots else ""
    page.run(f"{slots} setBook({json.dumps(text)}, 'load'); clearTimeout(timer); await work()")
    page.until("!under && !isAskingMore")


def records(text):
    """Returns the fields of each row of a CSV, by Python's reader."""
    return [it for it in csv.reader(io.StringIO(text, newline="")) if it]


def random_book(rng):
    """Returns the octets of a book with hostile texts; one of four has a row that is none of a book."""
    cells = rng.sample([(lac, ci) for lac in (1, 2) for ci in range(9)], rng.randrange(1, 7))
    slots = sorted(rng.randrange(0, 90) for _ in range(rng.randrange(1, 20)))
    if rng.random() < 0.3:
        rng.shuffle(slots)
    orders = books.random_orders(
        rng, slots,
        lambda number: books.Alert(f"n{number}", 4370 + rng.randrange(10), rng.randrange(4), rng.randrange(6)),
        lambda: books.Sending(rng.choice(gsm.WORDS), rng.randrange(3), rng.choice((1, 2, 3, 5, 8, 20)),
                              rng.choice((0, 0, 1, 3, 9)), rng.choice(HOSTILE)),
        lambda: None if rng.random() < 0.4 else rng.sample(cells, rng.randrange(1, len(cells) + 1)))
    lines = [*map(books.cell_line, cells), *(it.line() for it in orders)]
    if rng.random() < 0.25:
        lines[rng.randrange(len(lines))] = rng.choice(SPOILT) + "\n"
    return "".join(lines).encode()


def random_books_are_the_programs(page, program, count):
    """Outputs, statuses and fault lines of random books are those of the program."""
    same = faults = 0
    wrong = []
    for seed in range(count):
        rng = random.Random(seed)
        book, slots = random_book(rng), rng.randrange(40, 260)
        for command in COMMANDS:
            words = [command] if command in ("check", "texts") else [command, "--slots", slots, "--workers", 1]
            wanted, found = ran(program, words, book), in_page(page, [words], book)
            if wanted != found:
                wrong.append(f"book {seed}: {command}: {wanted[0]}, {wanted[2]!r}; page {found[0]}, {found[2]!r}")
            same, faults = same + (wanted[0] == 0), faults + (wanted[0] != 0)
    return wrong, f"{count} books: {same} outputs and {faults} refusals are the program's"


def first_slots(tape):
    """Returns when a phone that hears a tape shows each message: the slots after which all of its pages came."""
    first, pages = {}, {}
    for slot, at in enumerate(range(8, len(tape), 92)):
        if tape[at] != 0x20:
            continue
        key, number = tape[at + 1:at + 5], tape[at + 6]
        pages.setdefault(key, set()).add(number >> 4)
        if len(pages[key]) == number & 15:
            first.setdefault(key, slot + 1)
    return {(int.from_bytes(key[2:], "big"), key[:2].hex()): it for key, it in first.items()}


PAST = "cell broadcast not operational"


def remarks_in(table):
    """Returns the rows of the table of `check --slots` without those of how full cells get."""
    return [it for it in records(table) if not it[-1].startswith("fullest: ")]


def well_judged(row, fate, said, declared):
    """Whether what the page counts of an order is what `check --slots` says of it."""
    is_stop = row[0] == "stop"
    cells = row[-1 if is_stop else -2]
    asked = declared if cells == "*" else len(cells.split())
    for it in said:
        asked = 0 if it == "orders nothing" else asked - len(it.split()) + 2 if it.startswith("leaves out") else asked
    refused = {it.split(": ")[1]: int(it.split()[2]) for it in said if it.startswith("refused in")}
    found = {cause: len(it) for cause, it in fate["refused"].items()}
    past = found.pop(PAST, 0)
    hidden = sum(int(it.split()[3]) for it in said if it.startswith("never shown in"))
    lines = fate["shown"] + hidden + sum(found.values()) + past
    is_right = found == refused and bool(past) == ("past the end" in said)
    return is_right and (lines <= asked if is_stop else lines == asked)


def messages_are_read_right(page, program, count):
    """Of each message the page says when a phone shows it as its tape does, and names a row of its text."""
    wrong, shown = [], 0
    for seed in range(count):
        rng = random.Random(1000 + seed)
        book, slots = random_book(rng), rng.randrange(40, 260)
        status, tapes, _ = ran(program, ["compile", "--slots", slots], book)
        if status:
            continue
        groups, fates = page.run(f"""
            const {{ told }} = await bookDesk.ask("book", {{ text: {json.dumps(book.decode())}, slots: {slots} }});
            const {{ groups, fates }} = JSON.parse(told);
            const seen = ({{ marks, ...message }}) => message;
            return [groups.map(({{ cells, messages }}) => ({{ cells, messages: messages.map(seen) }})), fates];""")
        rows, remarks = records(book.decode()), {}
        for row, _, _, says in records(ran(program, ["check", "--slots", slots], book)[1].decode())[1:]:
            remarks.setdefault(row, []).append(says)
        size, declared = gsm.size_of_tape(slots), 0
        judged = {it["row"]: it for it in fates}
        for number, row in enumerate(rows, 1):
            declared += row[0] == "cell"
            if row[0] != "cell" and not well_judged(row, judged[number], remarks.get(str(number), []), declared):
                wrong.append(f"book {seed}: row {number}: {judged[number]}, {remarks.get(str(number))}")
        for group in groups:
            for cell in group["cells"]:
                first = first_slots(tapes[cell["index"] * size:(cell["index"] + 1) * size])
                for it in group["messages"]:
                    row = rows[it.get("row", 1) - 1]
                    is_sent = row[0] in ("write", "update") or it["cause"] and row[0] == "stop"
                    if not is_sent or it["first"] >= 0 and row[-1] != it["text"]:
                        wrong.append(f"book {seed}: {it} isn't of row {it.get('row')}")
                    if not it["cause"]:
                        shown += 1
                        if it["first"] != first.get((it["id"], it["serial"]), -1):
                            wrong.append(f"book {seed}: {cell['key']} {it}: {first}")
    return wrong, f"{shown} messages are shown when their tapes show them, and have the texts of their rows"


def examples_are_typed(page, program, _):
    """Each book of examples/, typed into the page, gives what the program gives."""
    wrong, count = [], 0
    for name in sorted(it for it in os.listdir(os.path.join(TOP, "examples")) if it.endswith(".csv")):
        book = release.read(os.path.join(TOP, "examples", name))
        page.run("showPane('book'); $('b-csv').focus(); $('b-csv').select()")
        page.type(book.decode())
        page.until(f"state.text === {json.dumps(book.decode())}")
        run = ["--slots", 48, "--workers", 1]
        for commands in ([["compile", *run], ["read"]], [["report", *run]], [["chart", *run]], [["check"]], [["texts"]],
                         [["texts", "--pages", 2]], [["compile", *run], ["pcap", "--used"]], [["groups"]],
                         [["compile", *run], ["read", "--slots"]]):
            status, given, fault = 0, book, ""
            for words in commands:
                if status == 0:
                    status, given, fault = ran(program, words, given)
            count += 1
            if in_page(page, commands, page.run("return state.text").encode()) != (status, given, fault):
                wrong.append(f"{name}: {commands}")
    return wrong, f"{count} outputs of the books of examples/, typed, are the program's"


def texts_cost_what_the_program_says(page, program, count):
    """The facts, the pages and the marks of a text are those of `warnc texts` and of the documents."""
    wrong, pages = [], 0
    for seed in range(count):
        rng = random.Random(seed)
        text = texts_reference.random_text(rng).replace("\r", "") + "\n" * (seed % 7 == 0)
        page.run(f"showPane('text'); state.row = 0; draft.text = {json.dumps(text)}; refreshText()")
        page.until("!isAsking")
        said = page.run("""return [$('t-facts').textContent, [...document.querySelectorAll('#t-pages p')].map((it) =>
            it.textContent), [...document.querySelectorAll('#t-back mark')].map((it) => it.textContent).join(''),
            $('t-text').value, !$('t-fault').hidden, [...document.querySelectorAll(
            '#t-pages header span:last-child')].map((it) => it.textContent), $('t-blocks').textContent]""")
        bad, pieces = any(map(texts_reference.is_bad, text)), gsm.pieces_of(text)
        foreign = [it for it in text if not texts_reference.is_gsm(it)]
        if said[3] != text or any(it not in said[2] for it in foreign):
            wrong.append(f"text {seed}: {text!r} has the marks {said[2]!r}")
        if bad or not text or len(pieces[0]) > 15:
            if said[1] not in ([], ["Type a warning: its pages appear here."]) or said[4] == (not text):
                wrong.append(f"text {seed}: {text!r} can't be sent, and the page has {said[1]}")
            continue
        pages += len(pieces[0])
        whole, coding = (gsm.SEPTETS, "GSM 7-bit") if pieces[1] else (gsm.UNITS, "UCS-2")
        used = [sum(len(gsm.CODES[it]) if pieces[1] else 1 for it in one) for one in pieces[0]]
        if said[1] != pieces[0] or said[5] != [f"{it} of {whole}" for it in used]:
            wrong.append(f"text {seed}: {text!r}: {said}, wanted {pieces}")
        if not said[0].startswith(f"Alphabet{coding}") or f"Left{whole - used[-1]}on" not in said[0]:
            wrong.append(f"text {seed}: {text!r}: {said[0]}")
        # one LF at the end isn't part of what `page` reads
        blocks = ran(program, PAGE, f"{text}\n".encode())[1].decode().split("\n")[:4 * len(pieces[0])]
        shown = [it.replace(" ", "") for it in said[6].split("\n") if it and not it.startswith("Page")]
        if shown != blocks:
            wrong.append(f"text {seed}: {text!r}: the blocks are {shown}")
    return wrong, f"{count} texts have the pages ({pages}), the room and the marks of the documents"


def hostile_texts_do_nothing(page, _program, _):
    """Texts, names and cells with markup are shown as text in each pane."""
    title = page.run("return document.title")
    lines = ["cell,1,1\n"]
    for k, text in enumerate(HOSTILE):
        lines.append(books.line(["write", k, f"h{k}<b onclick=x>\"", 4371, 0, k, "und", 1, 40, 0, "*", text]))
    lines.append(books.line(["write", 0, "last", 4371, 0, 99, "und", 1, 40, 0, "*<i>", "x"]))
    load(page, "".join(lines), 900)
    wrong = []
    for text in ("".join(lines), "".join(lines[:-1])):
        load(page, text, 900)
        for pane in ("book", "air", "text"):
            page.run(f"""showPane('{pane}'); state.at = 900;
                if ('{pane}' === 'air') {{ showAir(); document.querySelectorAll('.msg').forEach((it) => it.click()); }}
                if ('{pane}' === 'text') {{ state.row = 2; refreshText(); }}
                await new Promise((done) => setTimeout(done, 120));""")
            made = page.run("""return document.querySelectorAll('main script, main img, main [onclick],'
                + 'main i i').length""")
            if made or page.run("return document.title") != title:
                wrong.append(f"{pane}: {made} elements of texts")
    shown = page.run("return [state.groups[0].messages.filter((it) => it.first >= 0).length, $('t-text').value]")
    if shown != [len(HOSTILE), HOSTILE[0]]:
        wrong.append(f"shown: {shown}")
    page.run("state.row = 0")
    return wrong, f"{len(HOSTILE)} hostile texts are text in all panes"


COLUMNS_OF_CHECK = ("row", "line", "column", "field", "value", "says")


def faults_stand_at_their_fields(page, program, _):
    """Of each mistake of tools/mistakes.py the page says what `check` says, at the field, and in German too."""
    wrong, count = [], 0
    page.run("showPane('book')")
    for mistake, rows in mistakes.entries():
        book = mistakes.made(mistake)
        try:
            text = book.decode()
        except UnicodeDecodeError:
            continue
        if text.startswith("\ufeff") or not text:
            continue
        load(page, text, 9600)
        table = ran(program, ["check"], book)[1].decode()
        said = page.run("""return [state.faults, [...document.querySelectorAll('#b-faults li p')].map((it) =>
            it.textContent), $('b-faults').hidden]""")
        wanted = [dict(zip(COLUMNS_OF_CHECK, it)) for it in records(table)[1:]]
        if said[0] != wanted or said[2] != (not rows):
            wrong.append(f"{mistake}: {said[0]}")
            continue
        count += len(wanted)
        if not wanted:
            continue
        first = wanted[0]
        if not said[1][0].startswith(f"Row {first['row']}, line {first['line']}, column {first['column']} "):
            wrong.append(f"{mistake}: {said[1][0]}")
        if f"{first['says']}." not in said[1][0]:
            wrong.append(f"{mistake}: {said[1][0]}")
        german = page.run("""language = 1; const said = state.faults.map((it) => saying(it.says)); language = 0;
            return said""")
        wrong += [f"no German: {it['says']}" for it, de in zip(wanted, german) if it["says"] == de and "*" not in de]
        field = page.run("""document.querySelector('#b-faults button').click(); const box = $('b-csv');
            return [document.activeElement.className || document.activeElement.tagName, document.querySelectorAll(
                '.badcell').length, box.value.slice(box.selectionStart, box.selectionEnd)]""")
        is_order = not text.splitlines()[int(first["line"]) - 1].startswith("cell,")
        if is_order and first["field"] and (f"c-{first['field'].lower()}" not in field[0] or not field[1]):
            wrong.append(f"{mistake}: the way to {first['field']} leads to {field}")
    return wrong, f"{count} faults stand at their rows and fields, in both languages"


SILENT = """\
cell,1,1
cell,1,2
write,0,a,4371,0,1,en,2,8,0,*,One
stop,20,a,*
update,30,a,en,2,8,0,*,vanishes
write,40,b,4371,0,2,en,2,8,0,1-1,Two
stop,50,b,1-2
write,100,c,4371,0,3,en,2,8,0,*,Three
stop,60,c,*
write,101,d,4371,0,3,en,2,8,0,*,twin
write,102,e,4371,0,5,en,2,1,0,1-1,full
write,103,f,4371,0,6,en,2,30,0,*," spaces "
update,150,b,en,2,8,0,*,Two again
write,160,i,4373,0,9,en,2,30,0,1-2," "
write,200,h,4372,0,8,en,2,2,1,1-1,once
stop,300,h,1-1
stop,310,h,1-1
write,380,k,4374,0,10,pl,2,60,0,1-2,aaaaaaaaaabbbbbbbbbbccccccccccddddddddddeó
write,900,g,4371,0,7,en,2,30,0,*,over
cell,1,3
"""
LATE = "! misses a cell: it is declared after this row"
NOTED = {
    3: ["✓ shown in 2", LATE], 4: ["✓ stopped in 2", LATE], 5: ["! no effect: nothing to change or stop", LATE],
    6: ["✓ shown in 1"], 7: ["! no effect: nothing to change or stop"], 8: ["! never shown in 2", LATE],
    9: ["✓ stopped in 2", "! only at 0:03:08: an earlier row is later", LATE],
    10: ["✕ refused in 2: identifier and serial number are in use (1-1 1-2)",
         "! twin of row 8: identifier, scope and code are the same", LATE],
    11: ["✕ refused in 1: no room left in the cell (1-1)"],
    12: ["✓ shown in 2", "! spaces: at an end of the text", LATE],
    13: ["✓ shown in 1", "! no effect in 1: nothing to change or stop in 1-2", LATE],
    14: ["✓ shown in 1", "! only spaces"], 15: ["✓ shown in 1"],
    16: ["✕ refused in 1: there is nothing to replace or stop (1-1)"], 17: ["! no effect: nothing to change or stop"],
    18: ["✓ shown in 1", "! 2 pages, not 1: UCS-2 because of ó at 41"],
    19: ["✕ refused: after the end of the run (1-1 1-2)", LATE],
}
# of the kinds of docs/formats.md each has to be in the book
KINDS = ("orders nothing", "leaves out", "done at slot", "refused in", "past the end", "same identifier", "only spaces",
         "UCS-2 because of", "gets nothing")


def what_would_go_unsaid_is_noted(page, program, _):
    """What `check --slots` remarks stands at its row or its cell, in both languages; nothing where it says nothing."""
    page.run("showPane('book')")
    load(page, SILENT, 400)
    table = ran(program, ["check", "--slots", 400], SILENT.encode())[1].decode()
    head, *rows = remarks_in(table)
    wrong = [f"the book has none that {it}" for it in KINDS if not any(row[3].startswith(it) for row in rows)]
    if page.run("return state.remarks") != [dict(zip(head, it)) for it in rows]:
        wrong.append("the remarks are others")
    noted = """const box = $('b-sheet'), noted = {};
        for (let k = 0; k < state.book.orders.length; k++) {
            moveTo(k, 3);
            noted[state.book.orders[k].row] = [chosenCell().parentNode.querySelector('.c-result').title,
                chosenCell().parentNode.querySelector('.c-result').textContent, $('b-said').textContent];
        }
        return [noted, [...document.querySelectorAll('#b-cells .odd')].map((it) => it.title),
            $('b-ncells').textContent, $('n-book').textContent, $('n-air').textContent, $('state').textContent]"""
    found, cells, counted, *badges = page.run(noted)
    for row, notes in NOTED.items():
        title, short, below = found[str(row)]
        is_warned = any(it[0] != "✓" for it in notes)
        if title.split("\n") != notes or below != (" · ".join([f"Row {row}", *notes]) if is_warned else ""):
            wrong.append(f"row {row}: {found[str(row)]}")
        wrong += [f"row {row}: {short}" for it in notes if it.split(": ")[0] not in short]
    if cells != ["Row 20: gets nothing"] or counted != "3 · ! 1 gets nothing" or badges[:2] != ["14", "4"]:
        wrong.append(f"{cells} {counted} {badges}")
    german, cells, *_ = page.run(f"language = 1; setWords(); {noted}")
    page.run("language = 0; setWords()")
    wrong += [f"no German: {de[0]}" for row, de in german.items() if set(de[0].split("\n")) & set(NOTED[int(row)])]
    wrong += [] if cells == ["Zeile 20: bekommt nichts"] else [f"{cells}"]
    page.run("$('b-flood').click(); clearTimeout(timer); await work()")
    page.until("!under && !isAskingMore")
    said = page.run("""return [state.remarks.length, document.querySelectorAll('#b-grid .warntext, #b-grid .badtext,'
        + '#b-cells .odd').length, $('n-book').hidden, $('n-air').hidden, $('b-said').textContent]""")
    # its four texts in Polish take more pages
    wrong += [] if said == [4, 4, False, True, ""] else [f"the flood has {said}"]
    page.run("setBook('cell,1,1\\n', 'load'); clearTimeout(timer); await work()")
    page.until("!under && !isAskingMore")
    said = page.run("return [state.remarks.length, document.querySelectorAll('#b-cells .odd').length]")
    wrong += [] if said == [1, 0] else [f"a book without orders has {said}"]
    return wrong, f"{len(rows)} remarks of {len(KINDS)} kinds stand at their rows and cells, in both languages"


def a_book_is_made_by_keys(page, _program, _):
    """A book can be made, undone and looked at without a mouse."""
    if isinstance(page, devtools.Firefox):
        return None, "keys: a headless window, which never has the focus, presses no button"
    page.run("$('b-new').click(); showPane('book', true); $('b-cell').focus()")
    page.type("7-1..3")
    page.key("Enter")
    page.run("document.querySelector('[data-add=write]').focus()")
    page.key("Enter")
    page.until("state.book.orders.length === 1")
    for steps, text in ((0, "0:10:00"), (2, "fire"), (9, 'Go "up", now')):
        for _step in range(steps):
            page.key("ArrowRight")
        page.key("F2")
        page.until("sheet.isEditing")
        page.run("document.activeElement.select()")
        page.type(text)
        page.key("Enter")
        page.until("!sheet.isEditing")
    text = page.run("return state.text")
    wanted = 'cell,7,1\ncell,7,2\ncell,7,3\nwrite,319,fire,4371,0,1,en,2,32,0,*,"Go ""up"", now"\n'
    wrong = [] if text.strip() == wanted.strip() else [f"the book is {text!r}"]
    for _time in range(3):
        page.key("z", CONTROL, "KeyZ")
    back = page.run("return state.text")
    if "fire" in back or "alert-1" not in back:
        wrong.append(f"undone is {back!r}")
    page.key("1", ALT | SHIFT, "Digit1")
    if page.run("return state.pane") != "text":
        wrong.append("Alt+Shift+1 doesn't show the texts")
    return wrong, "a book was made and undone by keys alone"


def files_of_spreadsheets_are_taken(page, _program, _):
    """Semicolons in Latin-1, tabs in UTF-16 and rows that are filled up are taken."""
    rows = [["cell", "1", "1"], ["write", "0", "a", "4370", "0", "1", "de", "2", "2", "0", "*", "Grüße, jetzt"]]
    wanted = "".join(map(books.line, rows))
    files = {
        "semicolons": "".join(";".join(it) + "\r\n" for it in rows).encode("latin-1"),
        "tabs": b"\xff\xfe" + "".join("\t".join(it) + "\n" for it in rows).encode("utf-16-le"),
        "filled": f"cell,1,1,,,,,,,,,\n{books.line(rows[1])}".encode(),
    }
    wrong = []
    for name, octets in files.items():
        page.run(f"await openFile(new File([new Uint8Array({list(octets)})], 'x.csv'))")
        time.sleep(0.15)
        page.until("!under")
        said = page.run("return [state.text, state.fault]")
        wrong += [] if said == [wanted, ""] else [f"{name}: {said}"]
    return wrong, f"{len(files)} files of spreadsheets are taken"


def files_are_saved_as_the_program_writes_them(page, program, _):
    """Each button of the air saves what the program writes; the chart is in the language of the page."""
    book = release.read(os.path.join(TOP, "examples", "day.csv"))
    run, wrong = ["--slots", 48, "--workers", 1], []
    load(page, book.decode(), 48)
    pipes = [[["compile", *run]], [["compile", *run], ["pcap", "--used"]], [["report", *run]]]
    cases = [(0, it) for it in pipes] + [(k, [["chart", *run, "--lang", it]]) for k, it in enumerate(("en", "de"))]
    for language, commands in cases:
        wanted, button = book, commands[-1][0]
        for words in commands:
            _status, wanted, _fault = ran(program, words, wanted)
        page.run(f"""language = {language}; setWords(); showPane('air'); window.saved = null;
            window.kept = download; download = (file, octets) => {{
                let text = ""; for (const octet of octets) text += String.fromCharCode(octet);
                window.saved = btoa(text); }};
            document.querySelector('[data-command={button}]').click()""")
        page.until("window.saved !== null")
        if base64.b64decode(page.run("download = window.kept; return window.saved")) != wanted:
            wrong.append(f"{button} in language {language}")
    page.run("language = 0; setWords()")
    return wrong, f"{len(cases)} files are saved as the program writes them, charts in both languages"


def texts_of_rows_are_written(page, program, _):
    """What is typed in the pane "Text" for a row stands in the book, as do mends; costs stand at the rows."""
    page.run("state.costs = []; $('b-flood').click()")
    time.sleep(0.15)
    page.until("!under && state.costs.length")
    head, *rows = records(ran(program, ["texts"], release.read(os.path.join(TOP, browser.EXAMPLE)))[1].decode())
    if page.run("return state.costs") != [dict(zip(head, it)) for it in rows]:
        return ["the costs of the flood's texts are others"], ""
    page.run("state.row = 13; showPane('text'); $('t-text').focus(); $('t-text').setSelectionRange(0, 4)")
    page.type("Flut, „neu“: ")
    page.until("!isAsking")
    first = page.run("return state.book.rows[12].fields[11].slice(0, 20)")
    page.run("$('t-all').click()")
    time.sleep(0.3)
    page.until("!isAsking && !under")
    then = page.run("""return [state.book.rows[12].fields[11].slice(0, 20), $('t-facts').textContent.includes('GSM'),
        state.groups[0].messages[0].text.slice(0, 12)]""")
    page.run("state.row = 0")
    good = first == "Flut, „neu“: wasserw" and then == ['Flut, "neu": wasserw', True, 'Flut, "neu":']
    return [] if good else [f"{first!r}, {then}"], "a row's text is typed and mended in the pane of texts"


def cells_that_are_done_are_told(page, program, _):
    """A run tells of each of its cells once, in order, and what it tells isn't in its line of standard error."""
    book = "".join(books.cell_line((7, it)) for it in range(9)) + "write,0,a,4370,0,1,en,2,4,0,*,Stay in!\n"
    told, result = page.run(f"""const told = [];
        const result = await bookDesk.ask("book", {{ text: {json.dumps(book)}, slots: 40 }},
            (stage, cells) => told.push([stage, cells ?? 0]));
        return [told, result.fault ?? ""]""")
    wrong = [] if told == [[1, it] for it in range(1, 10)] + [[2, 0]] and result == "" else [f"{told} {result!r}"]
    shown = page.run("""showBusy(1, 3); $("busy").hidden = false; showBusy(1, 4);
        const said = [$("state").textContent, $("bar").value]; showIdle(); showState(); return said""")
    cells = page.run("return state.book.cells.length")
    if f"4 of {cells} cells" not in shown[0] or abs(shown[1] - 4 / cells) > 0.01:
        wrong.append(f"the state says {shown}")
    refused = in_page(page, [["compile", "--slots", 9]], b"cell,1,1\nsell\n")
    if refused != ran(program, ["compile", "--slots", 9], b"cell,1,1\nsell\n"):
        wrong.append(f"a refusal is {refused}")
    return wrong, "a run tells of each cell that is done"


def work_is_cancelled(page, program, _):
    """A run that takes long can be cancelled, and the book be computed again; remarks of an older book are dropped."""
    page.run("showPane('air')")
    load(page, big_book(), 4096)
    page.run("""setBook(`${state.text}\\n`, 'edit'); while (!under) await new Promise((done) => setTimeout(done, 5));
        await stop()""")
    said = page.run("return [under, $('state').textContent.slice(0, 9)]")
    page.run("compute()")
    time.sleep(0.5)
    page.until("!under")
    again = page.run("return [state.fault, state.groups.length > 0]")
    wrong = [] if said == [0, "Cancelled"] and again == ["", True] else [f"{said} {again}"]
    page.run("""setBook(state.text.replace(',m0,', ',first,'), 'edit');
        while (!isAskingMore) await new Promise((done) => setTimeout(done, 2));
        times.book = 2 * QUIET;
        setBook(state.text.replace(',m1,', ',second,'), 'edit')""")
    page.until("state.done === state.text && !under && !isAskingMore")
    book = page.run("return state.text").encode()
    head, *rows = remarks_in(ran(program, ["check", "--slots", 4096], book)[1].decode())
    if page.run("return state.remarks") != [dict(zip(head, it)) for it in rows]:
        wrong.append("the remarks are another book's")
    drawn = page.run("showPane('book'); return document.querySelectorAll('#b-grid td').length")
    wrong += [] if drawn < 800 else [f"{drawn} cells of a table of 4,032 orders are drawn"]
    return wrong, f"a run was cancelled and done again; of 4,032 orders {drawn // 14} rows are drawn"


SOUP = ("cell", ",", "1", "2", '"', '""', "\n", "\r", "\r\n", "cell,3,4\n", "cell,5,6\r\n", '"cell",7,"8"\n', "\ufeff",
        " ", 'cell,1,"2"x\n', "\n\n", 'a"b', "cell,9,1\r")


def csv_is_read_as_the_program_reads_it(page, program, count):
    """The page finds the rows of a CSV, and their first fields, where the program does."""
    wrong = []
    for seed in range(count):
        rng = random.Random(seed)
        text = "".join(rng.choice(SOUP) for _ in range(rng.randrange(1, 14)))
        found = page.run(f"""return parseCsv({json.dumps(text)}).map((row, k) => (
            [k + 1, row.fields.length, row.fields[0]]))""")
        for it in records(ran(program, ["check"], text.encode())[1].decode())[1:]:
            row, _, column, field, value, says = it
            own = next((one for one in found if one[0] == int(row)), None)
            same = own is not None and (column != "1" or own[2][:80] == value)
            same = same and (f"{own[1]} columns" in says if "columns, cell" in says else field != "CI" or own[1] == 3)
            wrong += [] if same else [f"{text!r}: {it}, page {found}"]
        rows = ran(program, ["check"], (text + "\nx\n").encode())[1].decode() if '"' not in text else ""
        last = records(rows)[-1][0] if rows else ""
        wrong += [] if not last or int(last) == len(found) + 1 else [f"{text!r}: {len(found)} rows, program {last}"]
    return wrong, f"{count} soups of quotes and line ends have the program's rows"


def nothing_is_wider_than_the_window(page, _program, _):
    """No pane has to be scrolled sideways, and each control has a name."""
    wrong = []
    page.run("$('b-flood').click(); clearTimeout(timer); await work()")
    page.until("!under")
    for lang in ("en", "de"):
        for width in WIDTHS:
            page.size(width, 900)
            page.run(f"language = {int(lang == 'de')}; setWords(); await new Promise((done) => setTimeout(done, 200))")
            for pane in ("text", "book", "air"):
                wide = page.run(f"""showPane('{pane}'); await new Promise((done) => setTimeout(done, 30));
                    return document.documentElement.scrollWidth""")
                wrong += [] if wide <= width else [f"{pane}, {lang}: {wide} of {width} px"]
                wrong += [f"{pane}, {width} px: no name: {it}" for it in page.run("""
                    const isNamed = (it) => it.getAttribute('aria-label') || it.title
                        || it.labels?.[0]?.textContent.trim() || (it.tagName === 'BUTTON' && it.textContent.trim());
                    return [...document.querySelectorAll('button, input, select, textarea, [role=grid]')]
                        .filter((it) => it.offsetParent && !isNamed(it)).map((it) => it.outerHTML.slice(0, 60))""")]
    page.size(1280, 900)
    page.run("language = 0; setWords()")
    return wrong, f"{3 * 2 * len(WIDTHS)} panes and widths fit, and each control has a name"


def nothing_is_asked_for(page, _program, _):
    """No request was made but for the page, its policy forbids them, and nothing was complained of."""
    asked, said = page.asked(), page.complaints()
    wrong = [f"asked for {it}" for it in asked if it != f"file://{page.path}#lang=en&pane=text"[:len(it)]]
    tried = page.run("""try { await fetch('http://127.0.0.1:9/'); return 'answered'; }
        catch (fault) { return fault.name; }""")
    policy = page.run("return document.querySelector('meta[http-equiv]').content")
    wrong += [] if tried == "TypeError" and "default-src 'none'" in policy else [f"fetch: {tried}"]
    return wrong + [f"reported: {it}" for it in said], "no request was made, and none can be"


TESTS = (
    (examples_are_typed, 0), (random_books_are_the_programs, 1), (messages_are_read_right, 0.3),
    (texts_cost_what_the_program_says, 0.5), (csv_is_read_as_the_program_reads_it, 1), (hostile_texts_do_nothing, 0),
    (faults_stand_at_their_fields, 0), (what_would_go_unsaid_is_noted, 0), (a_book_is_made_by_keys, 0),
    (files_of_spreadsheets_are_taken, 0), (files_are_saved_as_the_program_writes_them, 0),
    (texts_of_rows_are_written, 0), (cells_that_are_done_are_told, 0),
    (work_is_cancelled, 0), (nothing_is_wider_than_the_window, 0),
    (nothing_is_asked_for, 0))


def big_book():
    """Returns a book of 4,096 rows, 64 of them cells."""
    rows = [books.cell_line((7, it)) for it in range(64)]
    for k in range(4032):
        cells = f"7-{k % 64} 7-{(k + 1) % 64}"
        text = f"Message {k} for the cell: stay indoors and listen to the radio."
        fields = [k // 64 * 60, f"m{k}", 4371 + k % 8, 1, k % 1024, "en", 2, 64, 30, cells, text]
        rows.append(books.line(["write", *fields]))
    return "".join(rows)


def opened(kind):
    """Opens the page in a browser; one that doesn't start is started once more."""
    try:
        return kind(browser.PAGE, "lang=en&pane=text")
    except devtools.Failed as why:
        print(f"browser/test.py: {kind.__name__} is started once more: {why}")
        return kind(browser.PAGE, "lang=en&pane=text")


def test(kind, program, count):
    """Runs all tests in a browser, and returns how many found something wrong."""
    counts = {"passed": 0, "FAILED": 0, "SKIPPED": 0}
    with opened(kind) as page:
        page.until(READY, devtools.SECONDS)
        for one, share in TESTS:
            began = time.monotonic()
            try:
                wrong, said = one(page, program, max(1, int(count * share)))
            except devtools.Failed as why:
                wrong, said = [str(why)], one.__name__
            print("".join(f"browser/test.py: {one.__name__}: {it[:600]}\n" for it in (wrong or [])[:5]), end="")
            verdict, seconds = "SKIPPED" if wrong is None else "FAILED" if wrong else "passed", time.monotonic() - began
            counts[verdict] += 1
            print(f"browser/test.py: {kind.__name__}: {verdict}: {said} ({seconds:.1f} s)", flush=True)
    print(f"browser/test.py: {kind.__name__}:", ", ".join(f"{count} {what}" for what, count in counts.items()))
    return counts["FAILED"]


def middle(numbers):
    return f"{statistics.median(numbers):.1f} ms (most {max(numbers):.1f})"


def measure(kind, program):
    """Prints how long the page's answers take in a browser."""
    firsts, books_first = [], []
    for _ in range(7):
        with kind(browser.PAGE, "lang=en&pane=text") as page:
            page.until(READY)
            first = page.run("return [times.first, times.firstBook]")
            firsts.append(first[0])
            books_first.append(first[1])
    print(f"{kind.__name__}, a page of {os.path.getsize(browser.PAGE):,} octets:")
    print(f"first answer after the script starts: {middle(firsts)}, first run of the flood: {middle(books_first)}")
    with kind(browser.PAGE, "lang=en&pane=text") as page:
        page.until(READY)
        page.run("""state.row = 0; draft.text = 'abcdefgh '.repeat(155); refreshText(); $('t-text').focus();
            window.keys = []; $('t-text').addEventListener('input', () => { const began = performance.now();
                setTimeout(() => keys.push(performance.now() - began)); }, true)""")
        answers = []
        for _ in range(40):
            for key in ("x", "Backspace"):
                page.key(key)
                page.until("!isAsking")
                answers.append(page.run("return times.text"))
        keys = page.run("return keys")
        print(f"a key in 1,395 characters: the page's thread {middle(keys)}, answer {middle(answers)}")
        book, runs, remarks = big_book(), [], []
        page.run("showPane('air')")
        for _ in range(5):
            page.run(f"state.text = ''; state.done = ''; state.slots = 4096; setBook({json.dumps(book)}, 'load')")
            run, more = page.run("""const until = async (isSo) => {
                    while (!isSo()) await new Promise((done) => setTimeout(done, 1));
                    return performance.now();
                };
                const shown = await until(() => isAskingMore);
                return [times.book, await until(() => !isAskingMore) - shown]""")
            runs.append(run)
            remarks.append(more)
        native = []
        for _ in range(5):
            began = time.monotonic()
            for command in ("report", "chart"):
                ran(program, [command, "--slots", 4096], book.encode())
            native.append(1000 * (time.monotonic() - began))
        print(f"4,096 rows: report and chart {middle(runs)}, those of the program {middle(native)}; "
              f"then remarks and costs {middle(remarks)}")
        opened = page.run("""showPane('book'); const began = performance.now(); showPane('air');
            return [performance.now() - began, document.querySelectorAll('#a-strips li').length]""")
        edits = page.run("""showPane('book'); const taken = [];
            for (let k = 0; k < 9; k++) {
                const began = performance.now();
                moveTo(1000 + k, 3); edit(`q${k}`); document.activeElement.blur();
                taken.push(performance.now() - began);
                await new Promise((done) => setTimeout(done, 30));
            } return taken""")
        print(f"an edit in it {middle(edits)}; Air opens in {opened[0]:.0f} ms ({opened[1]} strips)")


PICTURES = (
    ("text", 1280, 900, False, ""), ("text-dark", 1280, 900, True, ""), ("text-narrow", 390, 844, False, ""),
    ("book", 1280, 900, False, ""), ("book-dark", 1280, 900, True, ""), ("book-narrow", 390, 844, False, ""),
    ("air", 1280, 900, False, "setTime(4200)"), ("air-dark", 1280, 900, True, "setTime(4200)"),
    ("air-narrow", 390, 844, False, "setTime(4200)"), ("air-narrow-dark", 390, 844, True, "setTime(4200)"),
    ("text-polish", 1280, 900, False, "state.row = 15; refreshText()"),
    ("text-long", 1280, 900, True, "draft.text = 'Evacuate now – '.repeat(99); refreshText()"),
    ("text-pasted", 390, 844, True,
     "draft.text = 'Evacuate\\u00a0now 😀 “go”\\u200b, u\\u0308ber — don’t'; refreshText()"),
    ("book-faults", 1280, 900, False, "setBook(state.text.replace('write,956', 'write,00:30').replace('stop,7648',"
     " 'stop,x'), 'edit'); await new Promise((done) => setTimeout(done, 600))"),
    ("book-faults-narrow", 390, 844, True, "setBook(state.text.replace('write,956', 'write,00:30'), 'edit');"
     " await new Promise((done) => setTimeout(done, 600))"),
    ("air-zoom", 1280, 900, False, "setTime(3824); for (let k = 0; k < 3; k++) $('z-in').click();"
     " document.querySelectorAll('#a-lines .msg')[2].click()"),
    ("air-silent", 1280, 900, False, f"state.slots = 400; setBook({json.dumps(SILENT)}, 'load');"
     " await new Promise((done) => setTimeout(done, 600)); setTime(300)"),
    ("air-print", 1050, 800, False, "dispatchEvent(new Event('beforeprint'))"),
)


# how much of each pane the documents show, in pixels, and how much smaller
OF_DOCUMENTS = {"text": 880, "book": 920, "air": 1130}
SCALE = 0.6


def take_pictures(folder):
    """Writes pictures of the panes."""
    is_docs = os.path.realpath(folder) == os.path.join(TOP, "docs")
    os.makedirs(folder, exist_ok=True)
    for name, width, height, dark, code in PICTURES:
        if is_docs and name not in OF_DOCUMENTS:
            continue
        with Chromium(browser.PAGE, f"lang=en&pane={name.split('-')[0]}", width, height, dark) as page:
            page.until(READY)
            if name.endswith("print"):
                page.look(False, "print")
            page.run(f"{code}; await new Promise((done) => setTimeout(done, 700))")
            if is_docs:
                page.shot(os.path.join(folder, f"page-{name}.png"), OF_DOCUMENTS[name], SCALE)
            else:
                page.shot(os.path.join(folder, f"{name}.png"))


def main(words):
    if words in (["-h"], ["--help"]):
        print(__doc__, end="")
        return 0
    is_named = len(words) == 2 and words[0] in ("--pictures", "--times")
    is_plain = len(words) in (1, 2) and words[0][0] != "-" and all(it.isdigit() for it in words[1:])
    if not is_named and not is_plain:
        print(__doc__, end="")
        return 2
    kinds = devtools.installed()
    if Chromium not in kinds:
        print("browser/test.py: Chromium isn't installed: SKIPPED the page there")
    if not kinds:
        return 0
    if words[0] == "--pictures":
        take_pictures(words[1])
        return 0
    program = words[1] if is_named else words[0]
    why = browser.stale()
    if why or release.sum_of(release.read(program)) != release.written_manifest()["program"]:
        print(f"browser/test.py: {why or 'dist/warnc.html is of another program'}: SKIPPED the tests of the page")
        return 0
    if is_named:
        for kind in kinds:
            measure(kind, program)
        return 0
    failed = 0
    for kind in kinds:
        try:
            opened(kind).__exit__()
        except devtools.Failed as why:
            print(f"browser/test.py: {kind.__name__} doesn't start ({why}): SKIPPED the page there")
            continue
        failed += test(kind, program, int(words[1]) if words[1:] else 200)
    return 1 if failed else 0


if __name__ == "__main__":
    sys.exit(main(sys.argv[1:]))
