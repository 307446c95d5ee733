#!/usr/bin/env python3
"""Compares what crate cbsp_link reads and writes with libosmogsm and with tshark, on random messages of the link.

Usage: link_reference.py [RUNS [SEED]]    900 messages, if no number is given, and of these 300 for tshark
       link_reference.py --help           prints this

libosmogsm (Debian's libosmocore-dev) writes the octets of each message from values in words, by tools/link_peer.c.
cbsp_link has to read the same values, and to write the same octets of them: they become rows of its tests, which run
unproved in a copy, and so take the libraries that `rt lib` built. libosmogsm has to read the values back, but for its
known faults, which are counted. tshark (Debian's package) has to show the same fields. What isn't there is skipped, and
a line says so.
"""
import collections
import os
import random
import shutil
import subprocess
import sys
import tempfile

from tried_rows import Bench, all_hold, in_parts

TOP = os.path.dirname(os.path.dirname(os.path.realpath(__file__)))
# without the other tests of cbsp_tests: those of refused memory take a memory that `rt try` doesn't have
BENCH = Bench(tests="cbsp_tests", module="of_cbsp_link", reader="table", others=("said",),
              needs=("cbs_page", "cbsp_link", "cbsp_wire", "test_support"))
# the types of messages: an order to write and its two replies, an order to stop and its two replies
WRITE, WRITTEN, NOT_WRITTEN, KILL, KILLED, NOT_KILLED = range(1, 7)
# the discriminators of cells: CGI, LAC and CI, CI, LAI, LAC, and all cells
ONE_CELL, ALL_CELLS = (0, 1, 2, 4, 5), 6
# how many octets a cell has, by its discriminator
OCTETS = {0: 7, 1: 4, 2: 2, 4: 5, 5: 2, 6: 0}
PAGE = 82
# data codings that tshark knows; at others it ends after the first page
CODINGS = (0x00, 0x01, 0x0F, 0x20, 0x23, 0x40, 0x48, 0x50, 0x58)
# so many rows go into a test
ROWS = 50
# the fields of tshark, in the order in which they are asked for, and how each is written
FIELDS = ("msg_type message_id new_serial_nr old_serial_nr channel_ind category num_bcast_req dcs num_of_pages "
          "user_info_len cell_id_disc lac ci cause num_bcast_compl").split()


class Message:
    """A random message: its words, and what of it is asked of tshark."""

    def __init__(self, rng, kind):
        self.rng, self.kind = rng, kind
        self.words, self.fields = [], collections.defaultdict(list)
        self.failure_octets = self.completed_octets = None
        self.number("type", "msg_type", kind, kind)
        self.number("id", "message_id", 0, 65535)
        if kind <= NOT_WRITTEN:
            self.number("new", "new_serial_nr", 0, 65535)
        if kind > NOT_WRITTEN or rng.random() < 0.5:
            self.number("old", "old_serial_nr", 0, 65535)
        if kind in (WRITE, KILL):
            self.cells((*ONE_CELL, ALL_CELLS))
        else:
            self.reply()
        if kind == WRITE:
            self.broadcast()
        elif rng.random() < 0.7:
            self.number("ch", "channel_ind", 0, 1)

    def number(self, name, field, least, most):
        """Adds a number from a range."""
        value = self.rng.randint(least, most)
        self.words.append(f"{name}={value}")
        self.fields[field].append(value)

    def cell(self, kind):
        """Returns the words of a cell."""
        rng = self.rng
        three = rng.randrange(2)
        network = f"{rng.randrange(1000)}.{rng.randrange(1000 if three else 100)}.{three}"
        lac, ci = rng.randrange(65536), rng.randrange(65536)
        if kind in (0, 1, 4, 5):
            self.fields["lac"].append(lac)
        if kind in (0, 1, 2):
            self.fields["ci"].append(ci)
        return {0: f"{network}.{lac}.{ci}", 1: f"{lac}.{ci}", 2: f"{ci}", 4: f"{network}.{lac}", 5: f"{lac}"}[kind]

    def cells(self, kinds):
        """Adds a list of cells."""
        kind = self.rng.choice(kinds)
        self.fields["cell_id_disc"].append(kind)
        count = 0 if kind == ALL_CELLS else self.rng.randint(1, 8)
        self.words.append(f"cl={kind}:" + ",".join(self.cell(kind) for _ in range(count)))

    def reply(self):
        """Adds the lists of a reply. libosmogsm crashes where a reply of success has no list of cells."""
        rng = self.rng
        if self.kind in (NOT_WRITTEN, NOT_KILLED):
            self.failures()
        if rng.random() < 0.6:
            self.completed()
        if self.kind in (WRITTEN, KILLED) or rng.random() < 0.5:
            self.cells(ONE_CELL)

    def failures(self):
        """Adds cells that refused."""
        self.failure_octets = 0
        for _ in range(self.rng.randint(1, 8)):
            kind, cause = self.rng.choice(ONE_CELL), self.rng.randrange(16)
            self.fields["cell_id_disc"].append(kind)
            self.fields["cause"].append(cause)
            self.failure_octets += OCTETS[kind] + 2
            self.words.append(f"fl={kind}:{self.cell(kind)}/{cause}")

    def completed(self):
        """Adds numbers of completed broadcasts."""
        kind, counts = self.rng.choice(ONE_CELL), []
        self.fields["cell_id_disc"].append(kind)
        for _ in range(self.rng.randint(1, 8)):
            number = self.rng.randrange(65536)
            self.fields["num_bcast_compl"].append(number)
            counts.append(f"{self.cell(kind)}/{number}/{self.rng.randrange(3)}")
        self.completed_octets = 1 + (OCTETS[kind] + 3) * len(counts)
        self.words.append(f"nc={kind}:" + ",".join(counts))

    def broadcast(self):
        """Adds what an order to write says beside its names and its cells."""
        rng = self.rng
        self.number("ch", "channel_ind", 0, 1)
        self.number("cat", "category", 0, 2)
        self.words.append(f"per={rng.randrange(4096)}")
        self.number("num", "num_bcast_req", 0, 65535)
        coding = rng.choice(CODINGS) if rng.random() < 0.5 else rng.randrange(256)
        self.words.append(f"dcs={coding}")
        self.fields["dcs"].append(coding)
        pages = rng.randint(1, 15)
        self.fields["num_of_pages"].append(pages)
        for _ in range(pages):
            used = rng.randint(0, PAGE)
            self.fields["user_info_len"].append(used)
            self.words.append(f"pg={used}:{rng.randbytes(PAGE).hex()}")

    def known_fault(self):
        """Returns the fault by which libosmogsm reads it wrong, if there is a known one."""
        if self.failure_octets is not None:
            return "a list of failures (1.7.0)" if self.failure_octets >= 5 else "a list of failures under 5 octets"
        if self.completed_octets is not None and self.completed_octets < 7:
            return "a list of completed broadcasts under 7 octets"
        return None

    def is_for_tshark(self):
        """Whether tshark shows all of it."""
        return all(it in CODINGS for it in self.fields["dcs"])


def differ(what, text, wanted, found):
    """Says what differs."""
    print(f"link_reference: {what}: {text[:200]}: wanted {wanted[:200]}, but it was {found[:200]}")


def peer_in(folder):
    """Builds tools/link_peer.c in a folder, and returns its path; None without libosmogsm."""
    peer = os.path.join(folder, "link_peer")
    source = os.path.join(TOP, "tools", "link_peer.c")
    built = subprocess.run(["cc", "-O1", "-o", peer, source, "-losmogsm", "-losmocore", "-ltalloc"],
                           capture_output=True, check=False)
    if built.returncode:
        print("link_reference: link_peer.c doesn't compile (libosmocore-dev isn't installed?): SKIPPED")
        return None
    return peer


def said_by(peer, verb, lines):
    """Returns what it answers to each line with this verb."""
    lines = "".join(f"{verb} {it}\n" for it in lines)
    return subprocess.run([peer], input=lines, capture_output=True, check=True, text=True).stdout.splitlines()


def written_by_peer(folder, messages):
    """Returns the octets that libosmogsm writes of messages, and the words that it reads of them; None without it."""
    peer = peer_in(folder)
    if peer is None:
        return None
    octets = said_by(peer, "write", [" ".join(it.words) for it in messages])
    return octets, said_by(peer, "read", octets)


def shown_by_tshark(folder, octets):
    """Returns the fields of messages that tshark shows, each message in a segment of TCP; None without it."""
    if not shutil.which("tshark") or not shutil.which("text2pcap"):
        print("link_reference: tshark or text2pcap isn't installed: SKIPPED")
        return None
    capture = os.path.join(folder, "link.pcap")
    dump = "".join(f"000000 {bytes.fromhex(it).hex(' ')}\n" for it in octets)
    subprocess.run(["text2pcap", "-q", "-F", "pcap", "-T", "40000,48049", "-", capture], input=dump, check=True,
                   capture_output=True, text=True)
    words = [word for field in FIELDS for word in ("-e", f"cbsp.{field}")]
    lines = subprocess.run(["tshark", "-n", "-r", capture, "-T", "fields", "-E", "separator=|", *words],
                           capture_output=True, check=True, text=True).stdout.splitlines()
    return [[[int(it, 0) for it in value.split(",") if it] for value in line.split("|")] for line in lines]


def main():
    if "--help" in sys.argv:
        print(__doc__.strip())
        return
    runs = int(sys.argv[1]) if len(sys.argv) > 1 else 900
    rng = random.Random(int(sys.argv[2]) if len(sys.argv) > 2 else 1)
    messages = [Message(rng, 1 + number % 6) for number in range(runs)]
    counts, differing = collections.Counter(), 0
    with tempfile.TemporaryDirectory() as folder:
        peer = written_by_peer(folder, messages)
        if peer is None:
            return
        octets, read = peer
        for message, digits, words in zip(messages, octets, read, strict=True):
            wanted = " ".join(message.words)
            if words == wanted:
                counts["libosmogsm reads back"] += 1
            elif message.known_fault():
                counts[f"libosmogsm reads wrong by {message.known_fault()}"] += 1
            else:
                differ("libosmogsm", digits, wanted, words)
                differing += 1
        rows = [f"in_order {digits} -> {' '.join(it.words)}" for it, digits in zip(messages, octets, strict=True)]
        if all_hold(BENCH, in_parts(rows, ROWS)):
            counts["cbsp_link reads and writes"] += len(rows)
        else:
            differing += 1
        some = [(it, digits) for it, digits in zip(messages, octets, strict=True) if it.is_for_tshark()][:300]
        shown = shown_by_tshark(folder, [digits for _, digits in some])
        for (message, digits), found in zip(some, shown or []):
            wanted = [message.fields[field] for field in FIELDS]
            counts["tshark shows"] += wanted == found
            if wanted != found:
                differ("tshark", digits, str(wanted), str(found))
                differing += 1
    print(f"link_reference: {runs} messages, {differing} differ: {dict(counts)}")
    sys.exit(differing > 0)


if __name__ == "__main__":
    main()
