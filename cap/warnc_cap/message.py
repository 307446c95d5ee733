"""Messages of CAP: reads one, or says what is wrong with it."""
import re
import unicodedata
from dataclasses import dataclass, field
from fractions import Fraction
from xml.parsers import expat

NAMESPACE = "urn:oasis:names:tc:emergency:cap:1.2"
MOST_OCTETS = 4_000_000
# How many combining characters may follow each other: to put them in order takes the square of their number.
MOST_COMBINING = 100
# The words that CAP 1.2 has for its elements.
STATUSES = ("Actual", "Exercise", "System", "Test", "Draft")
KINDS = ("Alert", "Update", "Cancel", "Ack", "Error")
SCOPES = ("Public", "Restricted", "Private")
URGENCIES = ("Immediate", "Expected", "Future", "Past", "Unknown")
SEVERITIES = ("Extreme", "Severe", "Moderate", "Minor", "Unknown")
CERTAINTIES = ("Observed", "Likely", "Very Likely", "Possible", "Unlikely", "Unknown")
# The parameters that have a text for phones, and the elements that have one.
PARAMETERS, TEXTS = ("CMAMlongtext", "CMAMtext"), ("headline", "description", "instruction")
TIME = re.compile(r"([0-9]{4})-([0-9]{2})-([0-9]{2})T([0-9]{2}):([0-9]{2}):([0-9]{2})(\.[0-9]{1,9})?"
                  r"(Z|[+-][0-9]{2}:[0-9]{2})")
NUMBER = re.compile(r"[+-]?[0-9]{1,9}(\.[0-9]{1,20})?")


class Wrong(Exception):
    """What is wrong with a message: the element, and what."""

    def __init__(self, element, what):
        super().__init__(f"{element}: {what}")


@dataclass
class Node:
    """An element of CAP with the elements in it."""

    name: str
    text: list = field(default_factory=list)
    inside: list = field(default_factory=list)

    def every(self, name):
        return [it for it in self.inside if it.name == name]

    def words(self):
        """Returns the text, without white space before and after it."""
        return "".join(self.text).strip(" \t\r\n")


@dataclass
class Area:
    """A part of the country: polygons and circles of latitudes and longitudes, codes of places, and its name."""

    polygons: list
    circles: list
    codes: list
    name: str = ""


@dataclass
class Info:
    """What a message says in one language: its number from 1, and its parts. Times are seconds since 1970."""

    number: int
    language: str
    event: str
    urgency: str
    severity: str
    certainty: str
    effective: Fraction
    expires: Fraction
    codes: list
    parameters: dict
    headline: str
    description: str
    instruction: str
    areas: list


@dataclass
class Message:
    """A message, and the name of its file."""

    file: str
    identifier: str
    sender: str
    sent: Fraction
    status: str
    kind: str
    scope: str
    references: list
    infos: list


# --- XML ---


def tree_of(octets):
    """Returns the elements of CAP in a file. Elements of other namespaces, as signatures, are left out."""
    parser = expat.ParserCreate("utf-8", namespace_separator=" ")
    root = Node("")
    stack, strange = [root], 0

    def begins(name, _attributes):
        nonlocal strange
        space, _, plain = name.rpartition(" ")
        if strange or space != NAMESPACE:
            if len(stack) == 1 and not strange:
                raise Wrong(plain if plain.isalnum() else "alert", f"the namespace isn't {NAMESPACE}")
            strange += 1
            return
        node = Node(plain)
        stack[-1].inside.append(node)
        stack.append(node)

    def ends(_name):
        nonlocal strange
        if strange:
            strange -= 1
        else:
            stack.pop()

    def says(text):
        if not strange:
            stack[-1].text.append(text)

    def declared(_version, encoding, _alone):
        if encoding and encoding.lower() not in ("utf-8", "us-ascii", "ascii"):
            raise Wrong("file", f"its encoding is {encoding}: save it as UTF-8")

    def typed(*_words):
        raise Wrong("file", "a document type isn't taken")

    parser.StartElementHandler, parser.EndElementHandler, parser.CharacterDataHandler = begins, ends, says
    parser.XmlDeclHandler, parser.StartDoctypeDeclHandler = declared, typed
    try:
        parser.Parse(octets, True)
    except (expat.ExpatError, UnicodeError) as fault:
        raise Wrong("file", f"it isn't XML in UTF-8: {fault}") from None
    if root.inside[0].name != "alert":
        raise Wrong(root.inside[0].name, "the first element isn't alert")
    return root.inside[0]


# --- Elements ---


def only(node, name, place=""):
    """Returns the text of an element that has to be there once."""
    found = node.every(name)
    if len(found) != 1:
        raise Wrong(place + name, "it isn't there" if not found else "it is there more than once")
    words = found[0].words()
    if not words:
        raise Wrong(place + name, "it is empty")
    return words


def at_most_one(node, name, place=""):
    """Returns the text of an element that may be missing, then empty."""
    found = node.every(name)
    if len(found) > 1:
        raise Wrong(place + name, "it is there more than once")
    return found[0].words() if found else ""


def text_in(words, place):
    """Returns words that phones may show, which can be written in Unicode's form NFC."""
    count = 0
    for it in "" if words.isascii() else words:
        count = count + 1 if it > "\u02ff" and unicodedata.combining(it) else 0
        if count > MOST_COMBINING:
            raise Wrong(place, f"over {MOST_COMBINING} combining characters follow each other")
    return words


def one_of(node, name, choices, place=""):
    words = only(node, name, place)
    if words not in choices:
        raise Wrong(place + name, f"'{shown(words)}' is none of {', '.join(choices)}")
    return words


def shown(words):
    """Returns words as a line shows them: not too long, and without signs that change lines."""
    short = words if len(words) <= 40 else words[:40] + ".."
    return "".join(it if it.isprintable() else "?" for it in short)


def time_of(words):
    """Returns a time with its zone as seconds since 1970, or None."""
    found = TIME.fullmatch(words)
    if not found:
        return None
    year, month, day, hour, minute, second = (int(it) for it in found.groups()[:6])
    leaps = year % 4 == 0 and (year % 100 != 0 or year % 400 == 0)
    days = (31, 29 if leaps else 28, 31, 30, 31, 30, 31, 31, 30, 31, 30, 31)
    zone = found[8]
    shift = 0 if zone == "Z" else int(zone[1:3]) * 60 + int(zone[4:])
    good = 1 <= month <= 12 and 1 <= day <= days[month - 1] and hour <= 23 and minute <= 59 and second <= 60
    if year < 1 or not good or shift > 14 * 60 or zone != "Z" and int(zone[4:]) > 59:
        return None
    before = year - 1
    count = 365 * before + before // 4 - before // 100 + before // 400 + sum(days[:month - 1]) + day - 719_163
    minutes = (count * 24 + hour) * 60 + minute - (-shift if zone[0] == "-" else shift)
    return Fraction(minutes * 60 + second) + Fraction(found[7] or 0)


def time_in(node, name, place=""):
    """Returns the time of an element, or None if it isn't there."""
    words = at_most_one(node, name, place)
    if not words:
        return None
    time = time_of(words)
    if time is None:
        raise Wrong(place + name, f"'{shown(words)}' isn't a time as 2026-03-01T06:30:00+01:00")
    return time


def name_in(node, name):
    """Returns an identifier or a sender: CAP has neither spaces nor commas in them."""
    words = only(node, name)
    if re.search(r"[\s,<&]", words) or not words.isprintable():
        raise Wrong(name, f"'{shown(words)}' has a space, a comma, < or &")
    return words


def pairs_in(node, name, place):
    """Returns the pairs of a name and a value that an element may have many times."""
    return [(only(it, "valueName", f"{place}{name}: "), at_most_one(it, "value", f"{place}{name}: "))
            for it in node.every(name)]


def references_in(node):
    """Returns the messages that a message names: of each its sender and its identifier."""
    found = []
    for it in at_most_one(node, "references").split():
        parts = it.split(",")
        if len(parts) != 3 or time_of(parts[2]) is None:
            raise Wrong("references", f"'{shown(it)}' isn't a sender, an identifier and a time with commas between")
        found.append((parts[0], parts[1]))
    return found


def number_of(words, most, place):
    # of so few digits a float is as exact, and sooner there
    if not NUMBER.fullmatch(words) or abs(float(words) if len(words) <= 16 else Fraction(words)) > most:
        raise Wrong(place, f"'{shown(words)}' isn't a number from -{most} to {most}")
    return float(words)


def point_of(words, place):
    """Returns a latitude and a longitude."""
    parts = words.split(",")
    if len(parts) != 2:
        raise Wrong(place, f"'{shown(words)}' isn't a latitude and a longitude with a comma between")
    return number_of(parts[0], 90, place), number_of(parts[1], 180, place)


def polygon_of(words, place):
    points = [point_of(it, place) for it in words.split()]
    if len(points) < 4 or points[0] != points[-1]:
        raise Wrong(place, "a polygon has four points or more, of which the last is the first")
    return points


def circle_of(words, place):
    parts = words.split()
    if len(parts) != 2 or not NUMBER.fullmatch(parts[1]) or float(parts[1]) < 0:
        raise Wrong(place, f"'{shown(words)}' isn't a point, a space and a radius in kilometres")
    return point_of(parts[0], place), float(parts[1])


def area_of(node, place):
    name = only(node, "areaDesc", f"{place}area: ")
    return Area(
        [polygon_of(it.words(), f"{place}polygon") for it in node.every("polygon")],
        [circle_of(it.words(), f"{place}circle") for it in node.every("circle")],
        pairs_in(node, "geocode", place), " ".join(name.split()),
    )


def info_of(node, number):
    place = f"info {number}: "
    parameters = dict(reversed(pairs_in(node, "parameter", place)))
    for it in PARAMETERS:
        text_in(parameters.get(it, ""), f"{place}parameter")
    return Info(
        number, at_most_one(node, "language", place), text_in(only(node, "event", place), f"{place}event"),
        one_of(node, "urgency", URGENCIES, place), one_of(node, "severity", SEVERITIES, place),
        # CAP 1.2 has a word of CAP 1.0 count as the plain one
        one_of(node, "certainty", CERTAINTIES, place).removeprefix("Very "), time_in(node, "effective", place),
        time_in(node, "expires", place), pairs_in(node, "eventCode", place),
        parameters, *(text_in(at_most_one(node, it, place), f"{place}{it}") for it in TEXTS),
        [area_of(it, place) for it in node.every("area")],
    )


def message_of(file, octets):
    """Returns the message of a file, or raises what is wrong with it."""
    if len(octets) > MOST_OCTETS:
        raise Wrong("file", f"it has more than {MOST_OCTETS:,} octets")
    node = tree_of(octets)
    sent = only(node, "sent") and time_in(node, "sent")
    message = Message(
        file, name_in(node, "identifier"), name_in(node, "sender"), sent, one_of(node, "status", STATUSES),
        one_of(node, "msgType", KINDS), one_of(node, "scope", SCOPES), references_in(node),
        [info_of(it, number) for number, it in enumerate(node.every("info"), 1)],
    )
    if message.kind in ("Alert", "Update") and not message.infos:
        raise Wrong("info", "it isn't there")
    return message
