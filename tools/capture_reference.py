#!/usr/bin/env python3
"""Makes captures of tapes, tapes of captures and tables of their senders, as docs/formats.md describes them: a second
program against which `warnc pcap`, `warnc tape` and `warnc cells` are compared. It shares nothing with them.

Usage: capture_reference.py [--used] [--channel 51|52] < tapes > air.pcap
       capture_reference.py --back LAC-CI SLOTS [IPV4] < air.pcap > tape
       capture_reference.py --cells < air.pcap
       capture_reference.py --compare PROGRAM [RUNS]     random tapes there and back, with packets that are put in order
                                                         anew, doubled, dropped, foreign or cut, in the classic format
                                                         and in pcapng; each file is made by both programs
       capture_reference.py --tshark PROGRAM < tapes     what tshark shows of the captures that a built program makes,
                                                         beside what its `read` shows: identifiers, serial numbers and
                                                         texts of pages; and who sends there, beside its `cells`
"""
import argparse
import csv
import datetime
import os
import random
import re
import shutil
import struct
import subprocess
import sys

import gsm
from capture_files import (INTERFACE, LINKS, OLD_PACKET, PACKET, PCAPNG, SIMPLE_PACKET, UDP, block_of, carried_in,
                           clock, datagram, file_header, gsmtap, internet, internet_in, known_packets_of, linked,
                           options, packet, packets_of)
from gsm import Refused

HERE = os.path.dirname(os.path.realpath(__file__))
FRAMES = 51 * 26 * 2048
SLOTS = FRAMES // 51 // 8
MOST_SLOTS = 65535
CHANNELS = {51: 15, 52: 12}
# in a multiframe, by the channel's number in GSMTAP
FIRST_FRAMES = {15: 32, 12: 8}
# the microseconds from 1970 to the end of 2105
END = 4_291_747_200 * 1000000
CHOOSE = ": if several send, choose one by --from or --arfcn"


def packet_of_block(number, lac, cell, place, block, channel, start=0):
    slot, part = divmod(place, 4)
    multiframe = 8 * slot + part
    when = divmod(start + multiframe * 51 * 120000 // 26, 1000000)
    body = datagram(gsmtap((multiframe * 51 + FIRST_FRAMES[channel]) % FRAMES, channel, block))
    source, target = struct.pack(">HH", lac, cell), struct.pack(">I", 0x0A000000 + number)
    return packet(internet(source, target, slot % 65536, body), when)


def capture_of(octets, used=False, channel=15, start=0):
    out = [file_header()]
    for number, (lac, cell, blocks) in enumerate(gsm.tapes_of(octets)):
        for slot in range(len(blocks) // 4):
            four = blocks[4 * slot:4 * slot + 4]
            if used and four == [gsm.IDLE] * 4:
                continue
            out += [packet_of_block(number, lac, cell, 4 * slot + it, block, channel, start)
                    for it, block in enumerate(four)]
    return b"".join(out)


def block_in(link, octets, source, channel, is_sdcch):
    """Returns the frame number and the block that a packet carries, or None."""
    inside = internet_in(link, octets)
    octets = carried_in(inside, UDP)
    if octets is None or len(octets) < 8:
        return None
    if source is not None and inside[12:16] != source:
        return None
    _, port, size, _ = struct.unpack_from(">HHHH", octets)
    if port != 4729 or size < 8 or size > len(octets):
        return None
    octets = octets[8:size]
    if len(octets) < 16:
        return None
    version, words, kind, _, arfcn, _, _, frame, sent_on, _, slot, _ = struct.unpack_from(">BBBBHbbIBBBB", octets)
    if (version, kind) != (2, 1) or words < 4 or arfcn & 0x4000:
        return None
    if (sent_on, slot) not in ((7, 2), (8, 2)) if is_sdcch else sent_on not in (12, 15):
        return None
    if channel is not None and arfcn & 0x3FFF != channel:
        return None
    if len(octets) != 4 * words + gsm.BLOCK:
        return None
    return frame, octets[4 * words:]


def sender_in(link, octets):
    """Returns who sends the block that a packet carries, and how it is marked, or None."""
    for is_sdcch in (False, True):
        found = block_in(link, octets, None, None, is_sdcch)
        if found is not None and found[0] // 51 % 8 < 4:
            inside = internet_in(link, octets)
            source, = struct.unpack_from(">I", inside, 12)
            arfcn, = struct.unpack_from(">H", carried_in(inside, UDP), 8 + 4)
            return source, arfcn & 0x3FFF, "sdcch" if is_sdcch else "cbch"
    return None


def senders_of(octets):
    """Returns the table of who sends in a capture."""
    found = {}
    for number, link, when, inside in known_packets_of(octets):
        sender = sender_in(link, inside)
        if sender is not None:
            found.setdefault(sender, []).append((number, when))
    rows = [("source", "arfcn", "channel", "blocks", "first", "last", "slots", "pages", "identifiers", "first_time",
             "last_time")]
    for (source, arfcn, mark), them in found.items():
        source = struct.pack(">I", source)
        (first, began), (last, ended) = them[0], them[-1]
        rows.append((".".join(map(str, source)), arfcn, mark, len(them), first, last,
                     *carried_by(octets, source, arfcn, mark == "sdcch"), seconds_of(began), seconds_of(ended)))
    return "".join(",".join(map(str, it)) + "\n" for it in rows).encode()


def seconds_of(time):
    return "" if time is None else f"{time // 10 ** 9}.{time % 10 ** 9:09}"


def carried_by(octets, source, arfcn, is_sdcch):
    """Returns the numbers of slots and of pages of a sender's tape, and the pages' identifiers; or empty texts."""
    try:
        tape = tape_of(octets, 0, 0, None, source, arfcn, is_sdcch)[gsm.HEADER.size:]
    except Refused:
        return "", "", ""
    blocks = [tape[at:at + gsm.BLOCK] for at in range(0, len(tape), gsm.BLOCK)]
    pages = [it for it in zip(blocks, blocks[1:], blocks[2:], blocks[3:])
             if [block[0] for block in it] == [0x20, 0x21, 0x22, 0x33]]
    identifiers = dict.fromkeys(struct.unpack_from(">H", first, 3)[0] for first, *_ in pages)
    return len(blocks) // 4, len(pages), " ".join(map(str, identifiers))


class Track:
    """Where blocks stand: in slots from that of the first one on."""

    def __init__(self):
        self.first = self.latest = None

    def slot_of(self, slot, number):
        """Returns the slot in which the next block stands, by its slot in the hyperframe; a packet has this number."""
        if self.first is None:
            self.first, self.latest = slot, 0
        step = (slot - self.first - self.latest) % SLOTS
        if step == SLOTS - 1 and self.latest > 0:
            return self.latest - 1
        if step >= SLOTS // 2:
            raise Refused(f"packet {number}: steps back{CHOOSE}")
        self.latest += step
        return self.latest


def place_of(frame):
    """Returns the slot in the hyperframe that has a frame, and the frame's place there."""
    return divmod(frame // 51 % (FRAMES // 51), 8)


def tape_of(octets, lac, cell, slots, source=None, channel=None, is_sdcch=False, first_slot=0):
    blocks, track = {}, Track()
    for number, link, _, inside in known_packets_of(octets):
        found = block_in(link, inside, source, channel, is_sdcch)
        if found is None:
            continue
        frame, block = found
        slot, part = place_of(frame)
        if part >= 4:
            continue
        there = first_slot + track.slot_of(slot, number)
        if there < (MOST_SLOTS if slots is None else slots) and blocks.setdefault(4 * there + part, block) != block:
            raise Refused(f"packet {number}: block differs{CHOOSE}")
    if track.first is None:
        raise Refused("no block of the wanted sender: warnc cells lists who sends, over IPv4 alone")
    if slots is None:
        slots = max(blocks) // 4 + 1 if blocks else first_slot
    return gsm.tape_of(lac, cell, (blocks.get(it, gsm.IDLE) for it in range(4 * slots)))


def random_tape(rng, slots):
    idle, half = gsm.IDLE_SLOT, gsm.IDLE * 2
    made = [rng.choice([idle, rng.randbytes(92), rng.randbytes(46) + half]) if rng.random() < 0.3 else idle
            for _ in range(slots)]
    return gsm.tape_of(rng.randrange(65536), rng.randrange(65536), made)


def foreign(rng):
    """A packet that isn't a block of a cell broadcast channel."""
    block, at = rng.randbytes(23), rng.randrange(FRAMES)
    good = gsmtap(at, 15, block)
    source, target = rng.randbytes(4), rng.randbytes(4)
    return rng.choice([
        internet(source, target, 1, datagram(good, 4730)),
        internet(source, target, 1, datagram(good[:-1])),
        internet(source, target, 1, datagram(good + b"+")),
        internet(source, target, 1, datagram(gsmtap(at, 15, block, 0x4000))),
        internet(source, target, 1, datagram(gsmtap(at, 15, block, rng.choice([1, 0x8000, 1023])))),
        internet(source, target, 1, datagram(gsmtap(at, rng.choice([7, 8]), block, slot=rng.choice([1, 2])))),
        internet(source, target, 1, datagram(b"\1" + good[1:])),
        internet(source, target, 1, datagram(good[:2] + b"\2" + good[3:])),
        internet(source, target, 1, datagram(good), 6),
        internet(source, target, 1, datagram(gsmtap((at // 408 * 8 + 4 + at % 4) * 51 % FRAMES, 12, block))),
        rng.randbytes(rng.randrange(80)),
        b"",
    ])


def disturbed(rng, packets):
    """Packets as a network may give them."""
    out = []
    for it in packets:
        if rng.random() < 0.02:
            continue
        out.append(it)
        if rng.random() < 0.05:
            out.append(it)
        if rng.random() < 0.05:
            out.append(foreign(rng))
        if rng.random() < 0.05 and len(out) > 1:
            out[-1], out[-2] = out[-2], out[-1]
        if rng.random() < 0.002:
            out.append(it[:-1] + bytes([it[-1] ^ 1]))
    return out


def random_file(rng, tape, is_sdcch=False):
    """A capture of a tape with another header, order, time and disturbance, and maybe marked as SDCCH."""
    order, magic = rng.choice("<>"), rng.choice([0xA1B2C3D4, 0xA1B23C4D])
    link = rng.choice(LINKS)
    inside = [it for *_, it in packets_of(capture_of(tape, rng.random() < 0.3, rng.choice([12, 15])))]
    if is_sdcch:
        inside = [it[:40] + rng.choice([b"\7", b"\x08"]) + it[41:] for it in inside]
    if rng.random() < 0.7:
        inside = disturbed(rng, inside)
    if rng.random() < 0.5:
        return random_blocks(rng, inside)
    inside = [linked(rng, link, it) for it in inside]
    out = file_header(order, magic, link) + b"".join(
        packet(it, (rng.randrange(1 << 32), rng.choice([7, 999999, rng.randrange(1 << 32)])), order) for it in inside)
    if rng.random() < 0.1:
        out = out[:rng.randrange(len(out) + 1)]
    if rng.random() < 0.02:
        out = PCAPNG + out[4:]
    if rng.random() < 0.02:
        out = out[:20] + rng.randbytes(4) + out[24:]
    return out


def random_blocks(rng, inside):
    """A file of pcapng of IPv4 packets: sections of both orders, interfaces of several link types, blocks of other
    types, and all kinds of packet blocks; at times a block that contradicts itself."""
    out, order, faces = [], "", []
    for it in inside:
        if not order or rng.random() < 0.02:
            order, faces = rng.choice("<>"), []
            length = rng.choice([2 ** 64 - 1, rng.randrange(2 ** 20)])
            body = struct.pack(order + "IHHQ", 0x1A2B3C4D, 1, rng.choice([0, 2]), length)
            out.append(block_of(order, struct.unpack(order + "I", PCAPNG)[0], body + options(rng, order)))
        while not faces or rng.random() < 0.1:
            link = rng.choice(LINKS) if rng.random() < 0.9 else rng.randrange(65536)
            faces.append((link, rng.choice([0, 0, 65535, 262144, rng.randrange(200)])))
            body = struct.pack(order + "HHI", faces[-1][0], rng.randrange(65536), faces[-1][1])
            out.append(block_of(order, INTERFACE, body + clock(rng, order)))
        if rng.random() < 0.1:
            other = rng.choice([0, 4, 5, 7, 10, 0xBAD, 0x40000BAD, 0x80000001, rng.randrange(11, 2 ** 32)])
            out.append(block_of(order, other, rng.randbytes(4 * rng.randrange(9))))
        known = [at for at, face in enumerate(faces) if face[0] in LINKS and (face[1] == 0 or face[1] > 200)]
        at = rng.choice(known) if known and rng.random() < 0.995 else rng.randrange(len(faces))
        out.append(packet_block(rng, order, faces, at, it))
    if out and rng.random() < 0.2:
        at = rng.randrange(len(out))
        out[at] = spoilt(rng, out[at])
    octets = b"".join(out)
    return octets[:rng.randrange(len(octets) + 1)] if rng.random() < 0.1 else octets


def packet_block(rng, order, faces, at, octets):
    """A block of one of the three kinds, of the interface of this number, or of number 0, and at a random time."""
    kind = rng.choice([PACKET, PACKET, PACKET, OLD_PACKET, SIMPLE_PACKET if faces[0][0] in LINKS else PACKET])
    link = faces[0 if kind == SIMPLE_PACKET else at][0]
    return packet_block_of(rng, order, kind, faces, at, linked(rng, link if link in LINKS else 101, octets))


def packet_block_of(rng, order, kind, faces, at, octets, ticks=None):
    """A block of this kind, of the interface of this number, or of number 0 if it is a simple one, and at this time, or
    at a random one. Of an interface its link type and the most octets of a packet come first."""
    longest = faces[0 if kind == SIMPLE_PACKET else at][1]
    kept = octets[:longest or len(octets)]
    if kind == SIMPLE_PACKET:
        return block_of(order, kind, struct.pack(order + "I", len(octets)) + kept)
    first = struct.pack(order + "I", at) if kind == PACKET else struct.pack(order + "HH", at, rng.randrange(9))
    time = (rng.randrange(1 << 20), rng.randrange(1 << 32)) if ticks is None else divmod(ticks, 1 << 32)
    body = first + struct.pack(order + "III", *time, len(kept))
    body += struct.pack(order + "I", len(octets)) + kept + bytes(-len(kept) % 4)
    return block_of(order, kind, body + options(rng, order))


def spoilt(rng, block):
    """A block with another number at one of its ends or in its front, or without some of its octets."""
    at = rng.choice([0, 4, 8, 12, 20, len(block) - 4])
    change = rng.choice([rng.randbytes(4), bytes([block[at % len(block)] ^ 1]), bytes(4), b"\0\0\0\1", b"\xff" * 4])
    return rng.choice([block[:at] + change + block[at + len(change):], block[:at] + block[at + 4:]])


def ran(program, words, octets):
    """What a program makes of an input: its output, or the line that refuses it."""
    done = subprocess.run([program, *words], input=octets, stdout=subprocess.PIPE, stderr=subprocess.PIPE, check=False)
    return done.stdout if done.returncode == 0 else done.stderr.decode().removeprefix("warnc: ").rstrip("\n")


def made(function, *words):
    """What this program makes of it."""
    try:
        return function(*words)
    except Refused as why:
        return str(why)


def compare_senders(program, run, rng, file):
    """Compares who sends in a capture, and what the tape of one of them is, of which a block was heard."""
    table = made(senders_of, file)
    assert ran(program, ["cells"], file) == table, f"run {run}: cells: {table}"
    rows = list(csv.DictReader(table.decode().splitlines())) if isinstance(table, bytes) else []
    for row in rng.sample(rows, min(1, len(rows))):
        source, arfcn, mark = bytes(map(int, row["source"].split("."))), int(row["arfcn"]), row["channel"]
        mine = made(tape_of, file, 1, 2, None, source, arfcn, mark == "sdcch")
        assert isinstance(mine, bytes) or not mine.startswith("no block"), f"run {run}: {row}: {mine}"
        if arfcn < 1024:
            words = ["tape", "--cell", "1-2", "--from", row["source"], "--arfcn", str(arfcn), "--channel", mark]
            assert ran(program, words, file) == mine, f"run {run}: {words}"


def random_start(rng):
    """Returns the microsecond at which tapes begin, and the words that say it in the time of some zone."""
    if rng.random() < 0.5:
        return 0, []
    start = rng.choice([0, END - 1, rng.randrange(END), rng.randrange(END // 1000000) * 1000000])
    zone = datetime.timezone(datetime.timedelta(minutes=rng.randint(-14 * 60, 14 * 60)))
    moment = datetime.datetime(1970, 1, 1, tzinfo=datetime.timezone.utc) + datetime.timedelta(microseconds=start)
    return start, ["--start", moment.astimezone(zone).isoformat()]


def compare(program, runs):
    rng, counts = random.Random(41), {}
    for run in range(runs):
        slots = rng.choice([1, 2, 7, 40, 300])
        tape = random_tape(rng, slots)
        used, channel = rng.random() < 0.5, rng.choice([51, 52])
        words = ["pcap", "--channel", str(channel)] + ["--used"] * used
        start, clock = random_start(rng)
        several = b"".join([tape] * rng.choice([0, 1, 1, 2, 65]) if slots < 8 else [tape])
        several = several if rng.random() < 0.9 else several[:rng.randrange(len(several) + 1)]
        mine = made(capture_of, several, used, CHANNELS[channel], start)
        assert ran(program, words + clock, several) == mine, f"run {run}: {words + clock}"
        lac, cell = struct.unpack_from(">HH", tape)
        back = ["tape", "--cell", f"{lac}-{cell}", "--slots"]
        whole = ran(program, ["pcap", "--channel", str(channel)], tape)
        assert ran(program, [*back, str(slots)], whole) == tape, f"run {run}: there and back"
        is_sdcch = rng.random() < 0.2
        file = random_file(rng, tape, is_sdcch != (rng.random() < 0.1))
        wanted = rng.choice([slots, slots, max(1, slots - 1), slots + 3])
        source = rng.choice([None, None, tape[:4], b"\x0A\0\0\1"])
        channel = rng.choice([None, None, 0, 1])
        first = rng.choice([0, 0, 0, 1, wanted - 1, wanted, 65535])
        wanted = wanted if rng.random() < 0.8 else None
        back = back[:-1] if wanted is None else [*back, str(wanted)]
        back += [] if source is None else ["--from", ".".join(map(str, source))]
        back += [] if channel is None else ["--arfcn", str(channel)]
        back += ["--channel", "sdcch"] if is_sdcch else rng.choice([[], [], ["--channel", "cbch"]])
        back += ["--first-slot", str(first)] if first or rng.random() < 0.2 else []
        mine = made(tape_of, file, lac, cell, wanted, source, channel, is_sdcch, first)
        assert ran(program, back, file) == mine, f"run {run}: {back}: {mine if isinstance(mine, str) else 'a tape'}"
        compare_senders(program, run, rng, file)
        kind = "a tape" if isinstance(mine, bytes) else re.sub(r"^packet \d+: |: .*| \d+(?=:)", "", mine)
        counts[kind] = counts.get(kind, 0) + 1
    print(f"{runs} runs, both programs made the same of each; captures that were disturbed gave {counts}")


def shown_by_tshark(capture):
    """The messages of a capture of one tape, as tshark shows them: each page that is whole has a line of fields."""
    names = ["message-identifier", "serial_number", "current_page", "total_pages", "page_content"]
    fields = [word for name in names for word in ("-e", f"gsm_cbs.{name}")]
    done = subprocess.run(["tshark", "-r", "-", "-Y", "gsm_cbs", "-T", "fields", "-E", "separator=|", *fields],
                          input=capture, stdout=subprocess.PIPE, stderr=subprocess.DEVNULL, check=True)
    messages = {}
    for line in done.stdout.decode().splitlines():
        number, serial, page, total, text = line.split("|", 4)
        pages = messages.setdefault((int(number, 0), int(serial, 0)), {})
        pages[int(page)] = text
        assert int(page) <= int(total)
    return {name: "".join(pages[it] for it in sorted(pages)) for name, pages in messages.items()}


def heard_by_tshark(capture):
    """The rows of `cells` for a capture whose blocks are marked as those of a CBCH, by what tshark says of packets."""
    asked = ("frame.number", "frame.time_epoch", "ip.src", "gsmtap.arfcn", "gsmtap.frame_nr")
    wanted = "gsmtap.type == 1 && gsmtap.uplink == 0 && gsmtap.chan_type in {12, 15}"
    fields = [word for name in asked for word in ("-e", name)]
    done = subprocess.run(["tshark", "-r", "-", "-Y", wanted, "-T", "fields", *fields],
                          input=capture, stdout=subprocess.PIPE, stderr=subprocess.DEVNULL, check=True)
    heard = {}
    for number, time, source, arfcn, frame in (it.split("\t") for it in done.stdout.decode().splitlines()):
        if int(frame) // 51 % 8 < 4:
            heard.setdefault((source, arfcn, "cbch"), []).append((number, time))
    return [[*sender, str(len(them)), them[0][0], them[-1][0], them[0][1], them[-1][1]]
            for sender, them in heard.items()]


def beside_tshark(program):
    """Compares what tshark shows of each tape with what `read` shows, and who sends in the capture of all of them,
    and in that of examples/, with what `cells` names."""
    if shutil.which("tshark") is None:
        print("tshark isn't installed: SKIPPED")
        return
    tapes = sys.stdin.buffer.read()
    with open(os.path.join(os.path.dirname(HERE), "examples", "osmo.pcap"), "rb") as it:
        captures = [ran(program, ["pcap"], tapes), it.read()]
    for capture in captures:
        table = csv.reader(ran(program, ["cells"], capture).decode().splitlines())
        named = [[*row[:6], *row[9:]] for row in list(table)[1:]]
        assert named == heard_by_tshark(capture), f"tshark hears {heard_by_tshark(capture)}, cells {named}"
    count = 0
    for lac, cell, blocks in gsm.tapes_of(tapes):
        tape = gsm.tape_of(lac, cell, blocks)
        table = csv.reader(ran(program, ["read"], tape).decode().splitlines())
        read = {(int(number), int(serial, 16)): text for _, _, number, serial, text in list(table)[1:]}
        shown = shown_by_tshark(ran(program, ["pcap"], tape))
        assert shown == read, f"cell {lac}-{cell}: tshark shows {shown}, read {read}"
        count += len(read)
    print(f"tshark shows the {count} messages that read shows, and hears the senders that cells names")


def main():
    parser = argparse.ArgumentParser(description=__doc__, formatter_class=argparse.RawDescriptionHelpFormatter)
    parser.add_argument("--used", action="store_true")
    parser.add_argument("--channel", type=int, choices=[51, 52], default=51)
    parser.add_argument("--back", nargs="+")
    parser.add_argument("--cells", action="store_true")
    parser.add_argument("--compare", nargs="+")
    parser.add_argument("--tshark")
    words = parser.parse_args()
    if words.compare:
        compare(words.compare[0], int((words.compare[1:] or ["1000"])[0]))
        return 0
    if words.tshark:
        beside_tshark(words.tshark)
        return 0
    octets = sys.stdin.buffer.read()
    try:
        if words.cells:
            sys.stdout.buffer.write(senders_of(octets))
        elif words.back:
            lac, cell = map(int, words.back[0].split("-"))
            source = bytes(map(int, words.back[2].split("."))) if len(words.back) > 2 else None
            sys.stdout.buffer.write(tape_of(octets, lac, cell, int(words.back[1]), source))
        else:
            sys.stdout.buffer.write(capture_of(octets, words.used, CHANNELS[words.channel]))
    except Refused as why:
        print(why, file=sys.stderr)
        return 1
    return 0


if __name__ == "__main__":
    sys.exit(main())
