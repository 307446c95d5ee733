"""Texts: what phones are to show of an info, in which language, and how much of it."""
import csv
import io
import re
import subprocess
import unicodedata
from dataclasses import dataclass

from .message import PARAMETERS

# Characters that a plain one stands for, if the text needs no other alphabet then.
PLAIN = str.maketrans({
    **dict.fromkeys("‘’‚‛′", "'"), **dict.fromkeys("“”„‟″", '"'), **dict.fromkeys("‐‑‒–—―−", "-"),
    **dict.fromkeys("\u00a0\u202f\u2007", " "),
})
LANGUAGES = "de en it fr es nl sv da pt fi no el tr hu pl und cs he ar ru is".split()
# Other words for them: of ISO 639-2, and of Norwegian and Hebrew.
OTHERS = {
    "deu": "de", "ger": "de", "eng": "en", "ita": "it", "fra": "fr", "fre": "fr", "spa": "es", "nld": "nl", "dut": "nl",
    "swe": "sv", "dan": "da", "por": "pt", "fin": "fi", "nor": "no", "nob": "no", "nno": "no", "nb": "no", "nn": "no",
    "ell": "el", "gre": "el", "tur": "tr", "hun": "hu", "pol": "pl", "ces": "cs", "cze": "cs", "heb": "he", "iw": "he",
    "ara": "ar", "rus": "ru", "isl": "is", "ice": "is",
}
# how many texts, and how many characters of them, a run of the program is given
MOST_TEXTS, MOST_CHARACTERS = 4000, 3_000_000
# how many septets may be lost at the ends of all pages, where a character of two doesn't fit
MOST_LOST = 16


class NoProgram(Exception):
    """The program can't be run, or doesn't do what it does elsewhere."""


@dataclass(frozen=True)
class Prepared:
    """The text of an info that is sent, how many characters are cut off, and what is to be told of it."""

    text: str
    cut: int
    notes: list


@dataclass(frozen=True)
class Wanted:
    """All that phones are to show of an info. If it begins with a headline and an instruction, how long these are."""

    text: str
    headline: int = 0
    instruction: int = 0
    is_event: bool = False


def run(program, words, octets):
    """Returns the status of a command of warnc, and what it writes."""
    try:
        done = subprocess.run([program, *words], input=octets, capture_output=True, check=False)
    except OSError as fault:
        raise NoProgram(f"{program}: {fault.strerror}; --warnc names the program") from None
    return done.returncode, done.stdout, done.stderr.decode(errors="replace").strip()


def csv_row(fields):
    """Returns a row of CSV."""
    out = io.StringIO()
    csv.writer(out, lineterminator="\n").writerow(fields)
    return out.getvalue()


def language_of(info):
    """Returns the word of a language for a book, and the first part of the info's own."""
    first = re.split(r"[-_]", info.language or "en")[0].lower()
    word = OTHERS.get(first, first)
    return (word if word in LANGUAGES else "und"), first


def spaced(text):
    """Returns text with its white space as single spaces."""
    return re.sub(r"[ \t\r\n]+", " ", text).strip(" ")


def composed(text):
    """Returns text in Unicode's form NFC, with its white space as single spaces."""
    return unicodedata.normalize("NFC", spaced(text))


def wanted_of(info):
    """Returns all that phones are to show of an info."""
    for name in PARAMETERS:
        text = composed(info.parameters.get(name, ""))
        if text:
            return Wanted(text)
    headline, instruction, description = (composed(it) for it in (info.headline, info.instruction, info.description))
    text = "\n".join(it for it in (headline, instruction, description) if it)
    if not text:
        return Wanted(composed(info.event), is_event=True)
    return Wanted(text, len(headline), len(instruction)) if headline and instruction else Wanted(text)


def costs_of(program, pages, texts):
    """Returns of each text its coding, and how many of its characters fit so many pages."""
    found = []
    while len(found) < len(texts):
        chunk, size = [], 0
        for it in texts[len(found):len(found) + MOST_TEXTS]:
            size += len(it)
            if chunk and size > MOST_CHARACTERS:
                break
            chunk.append(it)
        book = "cell,0,0\n" + "".join(csv_row(["write", 0, f"{at}", 0, 0, 0, "en", 0, 1, 0, "*", it])
                                      for at, it in enumerate(chunk))
        status, out, fault = run(program, ["texts", "--pages", str(pages)], book.encode())
        rows = list(csv.reader(io.StringIO(out.decode(), newline="")))[1:]
        if status or len(rows) != len(chunk):
            raise NoProgram(f"{program} texts: {fault or 'it has other columns'}")
        found += [(row[3], int(row[-1])) for row in rows]
    return found


def ends_near(headline, place):
    """Returns where a headline may be cut, between words, near a place; and the last such place before."""
    before = headline.rfind(" ", 0, max(0, place - MOST_LOST))
    near = range(max(1, place - MOST_LOST), min(len(headline), place + MOST_LOST) + 1)
    return [it for it in (before, *near) if it > 0 and (it == len(headline) or headline[it] == " ")]


def with_instructions(program, pages, pairs):
    """Returns a text of each pair of a headline and an instruction that are too long together: the longest front of the
    headline, between words, with which the instruction is whole; or if that is too long alone, its own front.

    The end of an instruction is what people need most, so the headline gives way to it. The headline isn't left out, as
    people should know what the instruction is about.
    The program costs the headline after the instruction first. The other way round they take almost as many septets.
    """
    costs = costs_of(program, pages, [f"{instruction}\n{headline}" for headline, instruction in pairs])
    made, tried = [], []
    for at, ((headline, instruction), (_, fits)) in enumerate(zip(pairs, costs)):
        made.append(instruction[:fits])
        if fits >= len(instruction):
            near = ends_near(headline, max(0, fits - len(instruction) - 1))
            tried += [(at, f"{headline[:it]}\n{instruction}") for it in near]
    for (at, text), (_, fits) in zip(tried, costs_of(program, pages, [text for _, text in tried])):
        if fits == len(text) > len(made[at]):
            made[at] = text
    return made


def sent_of(program, pages, wanted):
    """Returns what is sent of texts, each with what it would be if nothing were cut, and whether its quotes, dashes and
    spaces are plain ones."""
    sendable = ["".join(it if it <= "\uffff" else "?" for it in one.text) for one in wanted]
    plain = [it.translate(PLAIN) for it in sendable]
    costs = costs_of(program, pages, sendable + plain)
    found, pairs = [], {}
    for at, one in enumerate(wanted):
        text, (_, fits) = sendable[at], costs[at]
        coding, fits_plain = costs[len(wanted) + at]
        is_plain = coding.startswith("GSM") and plain[at] != text
        if is_plain:
            text, fits = plain[at], fits_plain
        found.append((text[:fits], text, is_plain))
        end = one.headline + 1 + one.instruction
        if one.instruction and fits < end:
            pairs[at] = (text[:one.headline], text[one.headline + 1:end])
    for at, text in zip(pairs, with_instructions(program, pages, list(pairs.values())) if pairs else []):
        found[at] = (text, *found[at][1:])
    return found


def prepare(program, infos):
    """Prepares the texts of infos, which are pairs of an info and a number of pages at most."""
    made, by_pages = [None] * len(infos), {}
    for at, (_, pages) in enumerate(infos):
        by_pages.setdefault(pages, []).append(at)
    for pages, places in by_pages.items():
        wanted = [wanted_of(infos[at][0]) for at in places]
        for at, one, (text, uncut, is_plain) in zip(places, wanted, sent_of(program, pages, wanted)):
            notes = ["it has no text but its event"] if one.is_event else []
            if any(it > "\uffff" for it in one.text):
                notes.append("characters that no page can have are written as ?")
            if is_plain:
                notes.append("quotes, dashes and spaces are written as plain ones, as the text is GSM 7-bit then")
            if text != uncut:
                way = "" if uncut.startswith(text) else ": the headline gives way to the instruction"
                many = "page" if pages == 1 else "pages"
                notes.append(f"its text is cut from {len(uncut)} to {len(text)} characters, {pages} {many}{way}")
            made[at] = Prepared(text, len(uncut) - len(text), notes)
    return made
