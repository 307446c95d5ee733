#!/usr/bin/env python3
"""Has programs that aren't ours write the captures that `warnc tape` and `warnc cells` read.

Usage: captures_converted.py PROGRAM [RUNS]    captures of random tapes, 200 times if no number is given: editcap,
                                               mergecap and text2pcap of Wireshark write each as raw IP, Ethernet with
                                               tags and without, Linux cooked and BSD loopback, in three types of files,
                                               at other times, with comments, joined of parts, with each packet twice.
                                               Tapes and senders have to be those of the capture that PROGRAM made, and
                                               of spoilt captures what tools/capture_reference.py makes of them
       captures_converted.py --live PROGRAM    sends the packets of a capture over the loopback device of a network of
                                               its own, where tcpdump and dumpcap record them in several link types:
                                               each recording has to give the tapes. It takes the rights of root
       captures_converted.py --help            prints this

PROGRAM is a built `warnc`. What isn't installed or allowed is skipped, and a line says so.
"""
import collections
import contextlib
import ctypes
import os
import random
import re
import shutil
import signal
import socket
import struct
import subprocess
import sys
import tempfile
import time
import zlib

import capture_files
import capture_reference as reference
import gsm

FILES = ("pcap", "nsecpcap", "pcapng")
# octets of a file's header, of a packet of `warnc pcap`, and of its headers of IPv4 and UDP
FILE_HEADER, PACKET, HEADERS = 24, 67, 28
ETHERNET = "ether"
# What is recorded on a loopback device, by which words; the packets go to standard output.
FILTER = ("udp", "port", "4729")
RECORDERS = (
    ("tcpdump", "-U", "-w", "-", "-i", "lo", *FILTER),
    ("tcpdump", "-U", "-w", "-", "-i", "any", *FILTER),
    ("tcpdump", "-U", "-w", "-", "-i", "any", "-y", "LINUX_SLL", *FILTER),
    ("tcpdump", "-U", "-w", "-", "-i", "lo", "--time-stamp-precision=nano", *FILTER),
    ("dumpcap", "-q", "-w", "-", "-i", "lo", "-f", " ".join(FILTER)),
    ("dumpcap", "-q", "-w", "-", "-i", "any", "-f", " ".join(FILTER)),
)
# no GSMTAP: the first is sent until all record it, and a recording that has the second is complete
BEGIN, END = b"recordings begin", b"recordings end"
# the flag of Linux's unshare for a network of one's own, and how long each wait may take, in seconds
NEW_NETWORK, PATIENCE = 0x40000000, 20


def tagged(rng, count):
    """Returns tags of virtual networks, and the type of IPv4."""
    return b"".join(rng.choice(capture_files.TAGS) + rng.randbytes(2) for _ in range(count)) + capture_files.IPV4


# what editcap calls the link type of a form, and what stands before IPv4
FORMS = {
    "raw IP": ("rawip", lambda rng: b""),
    "raw IPv4": ("rawip4", lambda rng: b""),
    "Ethernet": (ETHERNET, lambda rng: rng.randbytes(12) + tagged(rng, 0)),
    "one tag": (ETHERNET, lambda rng: rng.randbytes(12) + tagged(rng, 1)),
    "two tags": (ETHERNET, lambda rng: rng.randbytes(12) + tagged(rng, 2)),
    "cooked 1": ("linux-sll", lambda rng: rng.randbytes(14) + tagged(rng, rng.choice((0, 0, 0, 1, 2)))),
    "cooked 2": ("linux-sll2", lambda rng: capture_files.IPV4 + rng.randbytes(18)),
    # in the order of the machine that captured; OpenBSD has that of networks
    "BSD loopback": ("null", lambda rng: rng.choice((b"\2\0\0\0", b"\0\0\0\2"))),
    "OpenBSD loopback": ("loop", lambda rng: b"\0\0\0\2"),
}


class Asked(collections.namedtuple("Asked", "lac ci slots source")):
    """What a tape is asked of: a cell, and its address and a number of slots, or None."""

    def words(self):
        """Returns the words that ask `warnc` for it."""
        words = ["tape", "--cell", f"{self.lac}-{self.ci}"]
        words += [] if self.slots is None else ["--slots", str(self.slots)]
        return words + ([] if self.source is None else ["--from", socket.inet_ntoa(self.source)])


def by_program(program, file, asked):
    """Returns what the program makes of a capture: the tapes, or why there are none, and the table of its senders."""
    return [reference.ran(program, it.words(), file) for it in asked], reference.ran(program, ["cells"], file)


def by_reference(file, asked):
    """Returns what the second program makes of it."""
    return [reference.made(reference.tape_of, file, *it) for it in asked], reference.made(reference.senders_of, file)


def with_columns(answers, columns):
    """Returns tapes and who sends, of whom with these columns alone."""
    tapes, table = answers
    if isinstance(table, str):
        return tapes, table
    rows = [it.split(b",") for it in table.splitlines()]
    return tapes, [b",".join(it[at] for at in columns) for it in rows]


def without_times(answers):
    """Returns tapes and who sends, without when packets came: some converters move a file in time."""
    return with_columns(answers, range(9))


def without_numbers(answers):
    """Returns tapes and who sends, without how many packets there are, where, and when."""
    tapes, table = with_columns(answers, (0, 1, 2, 6, 7, 8))
    return tapes, table if isinstance(table, str) else sorted(table)


def without_all_but_names(answers):
    tapes, table = with_columns(answers, range(3))
    return tapes, table if isinstance(table, str) else sorted(table)

def wrote(words, octets=b""):
    """Returns what one of Wireshark's programs writes to its standard output."""
    done = subprocess.run(words, input=octets, stdout=subprocess.PIPE, stderr=subprocess.PIPE, check=False)
    if done.returncode:
        raise SystemExit(f"captures_converted: {' '.join(words)}: {done.stderr.decode(errors='replace')}")
    return done.stdout


def edited(file, options, packets=()):
    return wrote(["editcap", *options, "-", "-", *packets], file)


def merged(folder, files, options):
    """Returns what mergecap makes of files: it has only one standard input."""
    paths = [os.path.join(folder, str(at)) for at in range(len(files))]
    for path, file in zip(paths, files):
        with open(path, "wb") as it:
            it.write(file)
    return wrote(["mergecap", *options, "-w", "-", *paths])


def packets_in(capture):
    """Returns the packets of a capture of `warnc pcap`: seconds, microseconds and octets."""
    return list(struct.iter_unpack(f"<II8x{PACKET}s", capture[FILE_HEADER:]))


def in_form(rng, form, capture):
    """Returns a capture with another header in front of each packet, and maybe a trailer behind it. The file's header
    is as before: it is editcap that is told the link type."""
    header, trailer = FORMS[form][1], rng.choice((0, 0, 4))
    return capture[:FILE_HEADER] + b"".join(
        capture_files.packet(header(rng) + octets + rng.randbytes(trailer), when)
        for *when, octets in packets_in(capture))


def in_order(capture):
    """Returns a capture with the packets of all senders in the order of their times, as a recorder has them."""
    packets = sorted(packets_in(capture), key=lambda it: it[:2])
    return capture[:FILE_HEADER] + b"".join(capture_files.packet(octets, when) for *when, octets in packets)


def rewritten(rng, form, kind, capture, more=()):
    """Returns a capture that editcap wrote, in a form and a type of file, with options that leave packets whole."""
    options = ["-F", kind, "-T", FORMS[form][0], *more]
    options += rng.choice(([], [], ["-s", rng.choice(("100", "65535", "262144"))]))
    if kind == "pcapng":
        note = f"{rng.randrange(1, 9)}:{'x' * rng.randrange(1, 9)}"
        options += rng.choice(([], ["--capture-comment", "a trial", "-a", note]))
    return edited(in_form(rng, form, capture), options)


def typed(capture, kind):
    """Returns the capture that text2pcap makes, with headers of its own, of what the packets of one sender carry."""
    packets = [octets for *_, octets in packets_in(capture)]
    text = "".join(f"0000 {it[HEADERS:].hex(' ')}\n" for it in packets)
    addresses = f"{socket.inet_ntoa(packets[0][12:16])},10.0.0.0"
    return wrote(["text2pcap", "-q", "-F", kind, "-4", addresses, "-u", "4729,4729", "-", "-"], text.encode())


def converted(rng, run, capture, is_of_one, folder):
    """Yields captures that say the same: names of what was done, the file, and whether packets have kept their places.
    """
    for at, form in enumerate(FORMS):
        kind = FILES[(run + at) % len(FILES)]
        shift = ["-t", f"{rng.randrange(2 ** 31)}.{rng.randrange(10 ** 6):06}"] if rng.random() < 0.5 else []
        yield (form, kind), rewritten(rng, form, kind, capture, shift), True
    count = len(packets_in(capture))
    if count == 0:
        # a file without packets names no link type that mergecap could write
        return
    forms = [rng.choice(list(FORMS)) for _ in range(2)]
    whole = [rewritten(rng, form, rng.choice(FILES), capture) for form in forms]
    first = [f"1-{rng.randrange(1, count)}"]
    parts = [edited(whole[0], ["-r", "-F", "pcapng"], first), edited(whole[1], ["-F", "pcapng"], first)]
    # only pcapng has several link types in a file
    kind = rng.choice(FILES) if FORMS[forms[0]][0] == FORMS[forms[1]][0] else "pcapng"
    # of packets of one time mergecap takes either first
    by_time = rng.random() < 0.5
    yield ("joined parts",), merged(folder, parts, ["-F", kind] + ["-a"] * (not by_time)), is_of_one or not by_time
    yield ("two sections",), b"".join(parts), True
    yield ("two forms in one",), merged(folder, whole, ["-I", rng.choice(("all", "any", "none"))]), False
    twice = merged(folder, [whole[0]] * 2, ["-F", rng.choice(FILES)])
    yield ("each packet twice",), twice, False
    yield ("doubles taken out",), edited(twice, ["-d", "-F", rng.choice(FILES)]), True
    if is_of_one:
        yield ("headers of text2pcap",), typed(capture, rng.choice(FILES)), True


def spoilt(rng, capture, other, folder):
    """Returns a capture of which something was taken or changed, or that contradicts itself; the other capture has the
    same senders."""
    form, kind = rng.choice(list(FORMS)), rng.choice(FILES)
    file, same = rewritten(rng, form, kind, capture), ["-F", kind]
    # editcap takes no pcapng without packets
    way = rng.randrange(10) if len(capture) > FILE_HEADER else rng.choice((3, 4))
    if way == 0:
        return edited(file, [*same, "-s", str(rng.randrange(1, PACKET + 30))])
    if way == 1:
        chop = rng.choice((str(rng.randrange(-40, 40)), f"{rng.randrange(60)}:{rng.randrange(1, 9)}"))
        return edited(file, [*same, "-C", chop] + ["-L"] * rng.randrange(2))
    if way == 2:
        return edited(file, [*same, "-E", rng.choice(("0.0001", "0.002")), "--seed", str(rng.randrange(2 ** 31))])
    if way == 3:
        return file[:rng.randrange(len(file) + 1)]
    if way in (4, 5):
        at = rng.randrange(min(len(file), rng.choice((FILE_HEADER, 300, len(file)))))
        return file[:at] + rng.randbytes(1) + file[at + 1:]
    if way == 6:
        start = rng.randrange(1, 200)
        return edited(file, same, [str(rng.randrange(1, start + 1)), f"{start + 1}-{start + rng.randrange(2, 50)}"])
    if way == 7:
        return merged(folder, [file, edited(file, ["-t", rng.choice(("0.3", "1", "2", "7.5"))])], ["-F", "pcapng"])
    if way == 8:
        return merged(folder, [file, rewritten(rng, form, kind, other)], same)
    if rng.random() < 0.5:
        return merged(folder, [file, edited(file, ["-r", "-T", "ieee-802-11"], ["1-5"])], ["-F", "pcapng"])
    return edited(in_form(rng, form, capture), ["-F", rng.choice(("modpcap", "nokiapcap", "snoop")), "-T", ETHERNET])


def random_captures(program, rng):
    """Returns a capture, one of other blocks of the same senders, and what is asked of them."""
    tapes = [reference.random_tape(rng, rng.choice((1, 2, 7, 40, 100))) for _ in range(rng.choice((1, 1, 1, 2)))]
    words = ["pcap", "--channel", rng.choice(("51", "52"))] + ["--used"] * rng.randrange(2)
    asked, others = [], []
    for tape in tapes:
        lac, ci, slots = gsm.HEADER.unpack_from(tape)
        others.append(tape[:gsm.HEADER.size] + reference.random_tape(rng, slots)[gsm.HEADER.size:])
        source = None if len(tapes) == 1 and rng.random() < 0.5 else tape[:4]
        asked.append(Asked(lac, ci, rng.choice((None, slots, rng.randrange(1, 200))), source))
    return *(in_order(reference.ran(program, words, b"".join(it))) for it in (tapes, others)), asked


def shown(answers):
    """Returns answers as one can read them: of tapes their lengths and sums."""
    return [f"{len(it)} octets, {zlib.crc32(it):08x}" if isinstance(it, bytes) else it for it in answers[0]], answers[1]


def is_right(what, file, asked, wanted, found):
    """Whether the answers are those that were wanted; if not, says so, and keeps the capture."""
    if found == wanted:
        return True
    with tempfile.NamedTemporaryFile(prefix="captures_converted_", delete=False) as it:
        it.write(file)
    print(f"captures_converted: {what}: {it.name}: {asked}: wanted {shown(wanted)}, but it was {shown(found)}")
    return False


def differs(program, run, folder, counts, kinds):
    """Whether a capture of a run gives something else than it has to; counts captures, and what spoilt ones give."""
    rng, wrong = random.Random(run), 0
    capture, other, asked = random_captures(program, rng)
    wanted = by_program(program, capture, asked)
    for names, file, has_places in converted(rng, run, capture, len(asked) == 1, folder):
        part = without_times if has_places else without_numbers
        found = by_program(program, file, asked)
        wrong += not is_right(f"run {run}: {names}", file, asked, part(wanted), part(found))
        counts.update(names)
    for _ in range(2):
        file = spoilt(rng, capture, other, folder)
        found = by_program(program, file, asked)
        wrong += not is_right(f"run {run}: a spoilt capture", file, asked, by_reference(file, asked), found)
        for it in found[0]:
            kinds["a tape" if isinstance(it, bytes) else re.sub(r"^packet \d+: |: .*| \d+(?=:)", "", it)] += 1
    return wrong > 0


def missing(programs):
    """Returns the programs that aren't installed."""
    return [it for it in programs if shutil.which(it) is None]


def compare(program, runs):
    lacking = missing(("editcap", "mergecap", "text2pcap"))
    if lacking:
        print(f"captures_converted: {lacking[0]}, of wireshark-common, isn't installed: SKIPPED")
        return 0
    counts, kinds = collections.Counter(), collections.Counter()
    with tempfile.TemporaryDirectory() as folder:
        differing = sum(differs(program, run, folder, counts, kinds) for run in range(runs))
    print(f"captures_converted: {runs} runs, {differing} differ: captures were {dict(counts)}; those that were spoilt "
          f"gave {dict(kinds)}")
    return 1 if differing else 0


def read(path):
    with open(path, "rb") as it:
        return it.read()


def until(is_so, what):
    """Waits until something is so."""
    end = time.monotonic() + PATIENCE
    while not is_so():
        if time.monotonic() > end:
            raise SystemExit(f"captures_converted: {what}: not within {PATIENCE} s")
        time.sleep(0.05)


def send(number, payload):
    """Sends a datagram as the sender of this number."""
    with socket.socket(socket.AF_INET, socket.SOCK_DGRAM) as it:
        it.bind((f"127.0.0.{number + 1}", 4729))
        it.sendto(payload, ("127.0.0.1", 4729))


def recordings_of(capture, folder):
    """Returns what each of the recorders that could be started recorded of the packets of a capture, sent anew."""
    paths = [os.path.join(folder, str(at)) for at in range(len(RECORDERS))]
    with contextlib.ExitStack() as stack:
        running = []
        for words, path in zip(RECORDERS, paths):
            with open(path, "wb") as file:
                running.append(subprocess.Popen(words, stdout=file, stderr=subprocess.DEVNULL))
            stack.callback(running[-1].wait)
            stack.callback(running[-1].kill)

        def have(octets):
            return all(octets in read(path) or one.poll() is not None for path, one in zip(paths, running))

        def have_begun():
            send(0, BEGIN)
            return have(BEGIN)

        until(have_begun, "recorders begin")
        # the last octet of the destination is the tape's number
        for *_, octets in capture_files.packets_of(capture):
            send(octets[19], octets[HEADERS:])
        send(0, END)
        until(lambda: have(END), "packets are recorded")
        started = [it.poll() is None for it in running]
        for it in running:
            it.send_signal(signal.SIGINT)
        until(lambda: all(it.poll() is not None for it in running), "recorders end")
    return {words: read(path) for words, path, is_one in zip(RECORDERS, paths, started) if is_one}


def live(program):
    """Compares the recordings of a capture of two senders with it."""
    lacking = missing(("tcpdump", "dumpcap", "ip"))
    if lacking or ctypes.CDLL(None).unshare(NEW_NETWORK) != 0:
        why = f"{lacking[0]} isn't installed" if lacking else "no network of one's own is allowed"
        print(f"captures_converted: {why}: SKIPPED what is recorded")
        return 0
    subprocess.run(["ip", "link", "set", "lo", "up"], check=True)
    rng, wrong, links = random.Random(1), 0, set()
    tapes = [reference.random_tape(rng, 40) for _ in range(2)]
    capture = reference.ran(program, ["pcap"], b"".join(tapes))
    cells = [gsm.HEADER.unpack_from(it) for it in tapes]
    wanted = tapes, sorted([b"source,arfcn,channel", b"127.0.0.1,0,cbch", b"127.0.0.2,0,cbch"])
    asked = [Asked(*cell, socket.inet_aton(f"127.0.0.{at + 1}")) for at, cell in enumerate(cells)]
    with tempfile.TemporaryDirectory() as folder:
        recordings = recordings_of(capture, folder)
    for words in RECORDERS:
        if words not in recordings:
            print(f"captures_converted: '{' '.join(words)}' doesn't run: SKIPPED")
    for words, file in recordings.items():
        found = without_all_but_names(by_program(program, file, asked))
        wrong += not is_right(" ".join(words), file, asked, wanted, found)
        links.update(link for _, link, *_ in capture_files.packets_of(file))
    print(f"captures_converted: {len(recordings)} recordings, {wrong} differ; link types were {sorted(links)}")
    return 1 if wrong else 0


def main(words):
    if words in (["-h"], ["--help"]):
        print(__doc__, end="")
        return 0
    is_live = words[:1] == ["--live"]
    program, *rest = words[is_live:] or [""]
    if not os.access(program, os.X_OK) or len(rest) > 1 - is_live or not all(it.isdigit() for it in rest):
        print(__doc__, end="")
        return 2
    return live(program) if is_live else compare(program, int((rest or ["200"])[0]))


if __name__ == "__main__":
    sys.exit(main(sys.argv[1:]))
