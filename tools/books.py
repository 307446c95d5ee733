"""Makes and writes alert books, for tools that judge the program and for bench/.

It is a plain reading of docs/formats.md, as gsm.py is, and shares nothing with the crates.
"""
import dataclasses

# The columns of each verb after its own, and the numbers that they take.
COLUMNS = {
    "cell": "LAC CI".split(),
    "write": "AT NAME ID SCOPE CODE LANG CATEGORY PERIOD BROADCASTS CELLS TEXT".split(),
    "update": "AT NAME LANG CATEGORY PERIOD BROADCASTS CELLS TEXT".split(),
    "stop": "AT NAME CELLS".split(),
}
RANGES = {
    "LAC": (0, 65535), "CI": (0, 65535), "AT": (0, 65535), "ID": (0, 65535), "BROADCASTS": (0, 65535),
    "SCOPE": (0, 3), "CODE": (0, 1023), "PERIOD": (1, 1024), "CATEGORY": (0, 2),
}
# How many update rows a name has at most, and how many cells a group.
MAX_UPDATES, GROUP = 15, 64


def quoted(field):
    text = str(field)
    return '"' + text.replace('"', '""') + '"' if any(it in text for it in ',"\r\n') else text


def line(fields):
    """Returns the row of a book."""
    return ",".join(map(quoted, fields)) + "\n"


def cell_line(cell):
    return line(["cell", *cell])


@dataclasses.dataclass
class Alert:
    """What the rows of a name speak of."""

    name: str
    identifier: int
    scope: int
    code: int
    update: int = 0

    def serial(self):
        return self.scope << 14 | self.code << 4 | self.update


@dataclasses.dataclass
class Sending:
    """What a write or an update sends."""

    language: str
    category: int
    period: int
    broadcasts: int
    text: str


@dataclasses.dataclass
class Order:
    """A row that isn't of the verb `cell`. Its cells are pairs of LAC and CI, or None for all."""

    verb: str
    at: int
    alert: Alert
    cells: list
    sending: Sending = None

    def line(self):
        alert, sent = self.alert, self.sending
        fields = [self.verb, self.at, alert.name]
        if self.verb == "write":
            fields += [alert.identifier, alert.scope, alert.code]
        if sent:
            fields += [sent.language, sent.category, sent.period, sent.broadcasts]
        fields.append("*" if self.cells is None else " ".join(f"{lac}-{ci}" for lac, ci in self.cells))
        return line(fields + [sent.text] if sent else fields)


def random_orders(chance, slots, alert, sending, cells, verbs=("write", "write", "update", "stop")):
    """Yields an order for each of these slots: of a new name, or an update or a stop of one. `alert` gives the alert of
    a new name, by its number from 0; `sending` and `cells` give what is sent and where. An order's alert is as it was
    when it was given."""
    alerts = []
    for at in slots:
        verb = chance.choice(verbs) if alerts else "write"
        live = [it for it in alerts if it.update < MAX_UPDATES]
        if verb == "write" or verb == "update" and not live:
            verb = "write"
            alerts.append(alert(len(alerts)))
            one = alerts[-1]
        else:
            one = chance.choice(live if verb == "update" else alerts)
        one.update += verb == "update"
        yield Order(verb, at, dataclasses.replace(one), cells(), None if verb == "stop" else sending())
