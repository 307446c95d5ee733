#!/usr/bin/env python3
"""Has a real network do what a broadcast centre orders, and records the link and the air: osmo-bsc, and an
osmo-bts-virtual for each cell, of Debian's packages osmo-bsc and osmo-bts.

Usage: network.py [OPTIONS] FOLDER < CAPTURE    CAPTURE has the link; what the centre sends in it is sent to osmo-bsc at
                                                the same times. FOLDER is made, and gets what the programs say and
                                                both.pcap, the recording
       network.py --help                        prints this

    --cells LAC-CI,..    the cells, 1-1 if none is given; their ARFCNs are 871, 875 and so on
    --seconds SECONDS    the network runs on for so many seconds after the first order, 30 if none is given

All runs in a network of its own, which has only the loopback device, so nothing gets out, and nothing that listens on
this machine is met; and among processes of its own, which end when this one does. That takes the rights of root. What
tools/replay.py tells of the link is printed. The status is 1 if the network doesn't begin within 30 seconds, or if
osmo-bsc ends the connection.
"""
import argparse
import os
import resource
import subprocess
import sys
import time

sys.dont_write_bytecode = True
HERE = os.path.dirname(os.path.realpath(__file__))
TOOLS = os.path.join(os.path.dirname(HERE), "tools")
sys.path.insert(0, TOOLS)
from capture_files import UDP, carried_in, internet_in, packets_of  # noqa: E402
from gsm import Refused  # noqa: E402

ALONE = ("unshare", "--net", "--pid", "--fork", "--kill-child")
# what is recorded: the link, and of the air the blocks of the basic channel (channel 0F, places 0 to 3)
RECORDED = "tcp port 48049 or (udp port 4729 and udp[20] = 0x0f and (udp[16:4] / 51) % 8 < 4)"
# the ARFCN of the first cell, and how far the next one's is
FIRST_ARFCN, STEP = 871, 4
# the most octets of a file: osmo-bsc can write a hundred megabytes of complaints in ten seconds
MOST_WRITTEN = 4_000_000
# in seconds: how long the network may take to begin, how long a program may take to end, and between two looks
PATIENCE, ENDING, LOOK = 30, 3, 0.1

BSC = """log stderr
 logging level set-all notice
 logging level cbs debug
line vty
 no login
 bind 127.0.0.10
ctrl
 bind 127.0.0.10
e1_input
 e1_line 0 driver ipa
 ipa bind 127.0.0.10
network
 network country code 001
 mobile network code 01
{cells}msc 0
 allow-emergency allow
 mgw remote-ip 127.0.0.1
bsc
cbc
 mode server
 server
  local-ip 127.0.0.10
  local-port 48049
"""
CELL = """ bts {at}
  type osmo-bts
  band DCS1800
  cell_identity {ci}
  location_area_code {lac}
  base_station_id_code 63
  ipa unit-id {unit} 0
  oml ipa stream-id 255 line 0
  trx 0
   rf_locked 0
   arfcn {arfcn}
   nominal power 23
   max_power_red 20
   rsl e1 tei 0
   timeslot 0
    phys_chan_config CCCH+SDCCH4+CBCH
""" + "".join(f"   timeslot {it}\n    phys_chan_config TCH/F\n" for it in range(1, 8))
BTS = """log stderr
 logging level set-all notice
line vty
 no login
 bind 127.0.0.{host}
ctrl
 bind 127.0.0.{host}
e1_input
 e1_line 0 driver ipa
phy 0
 virtual-um net-device lo
 instance 0
bts 0
 band DCS1800
 ipa unit-id {unit} 0
 oml remote-ip 127.0.0.10
 paging queue-size 200
 paging lifetime 0
 trx 0
  phy 0 instance 0
"""


class Network:
    """A network of a few cells, whose programs end with it."""

    def __init__(self, cells, folder):
        self.cells, self.folder, self.running = cells, folder, []

    def __enter__(self):
        return self

    def __exit__(self, *_):
        for it in reversed(self.running):
            it.terminate()
        for it in reversed(self.running):
            try:
                it.wait(ENDING)
            except subprocess.TimeoutExpired:
                it.kill()
                it.wait()

    def path(self, name):
        return os.path.join(self.folder, name)

    def start(self, name, *words):
        """Starts a program, whose output goes to a file of this name."""
        with open(self.path(f"{name}.log"), "wb") as log:
            # without the signal of a file that is too large, which Python ignores, and so do they
            self.running.append(subprocess.Popen(words, cwd=self.folder, stdin=subprocess.DEVNULL, stdout=log,
                                                 stderr=log, restore_signals=False))

    def configure(self, name, text):
        """Writes a configuration, and returns its path."""
        with open(self.path(f"{name}.cfg"), "w", encoding="utf-8") as it:
            it.write(text)
        return self.path(f"{name}.cfg")

    def until(self, is_so, what):
        """Waits until something is so."""
        end = time.monotonic() + PATIENCE
        while not is_so():
            ended = next((it.args[0] for it in self.running if it.poll() is not None), None)
            if ended or time.monotonic() > end:
                raise SystemExit(f"network: {what}: {f'{ended} ended' if ended else f'not within {PATIENCE} s'}")
            time.sleep(LOOK)

    def said(self, name):
        """Returns what a program said so far."""
        with open(self.path(f"{name}.log"), encoding="utf-8", errors="replace") as it:
            return it.read()

    def begin(self):
        """Starts all programs, and waits until the cells take orders and send."""
        recording = self.path("both.pcap")
        self.start("tcpdump", "tcpdump", "-i", "lo", "-U", "-Z", "root", "-w", recording, RECORDED)
        self.until(lambda: "listening" in self.said("tcpdump"), "tcpdump records")
        cells = [{"at": at, "lac": lac, "ci": ci, "unit": 100 + at, "arfcn": FIRST_ARFCN + STEP * at, "host": 11 + at}
                 for at, (lac, ci) in enumerate(self.cells)]
        bsc = self.configure("bsc", BSC.format(cells="".join(CELL.format(**it) for it in cells)))
        self.start("bsc", "osmo-bsc", "-c", bsc)
        for it in cells:
            name = f"bts{it['at']}"
            self.start(name, "osmo-bts-virtual", "-c", self.configure(name, BTS.format(**it)))
        ready = "BTS becomes available for CBCH"
        self.until(lambda: self.said("bsc").count(ready) >= len(cells), "the cells take orders")
        self.until(lambda: len(senders_in(recording)) == len(cells), "the cells send")

    def play(self, capture, seconds):
        """Sends a centre's orders, and returns the status of what sends them."""
        replay = os.path.join(TOOLS, "replay.py")
        words = [sys.executable, "-B", replay, "--to", "127.0.0.10", "--seconds", str(seconds)]
        return subprocess.run(words, input=capture, timeout=seconds + PATIENCE, check=False).returncode


def senders_in(path):
    """Returns the ARFCNs of the blocks in a recording, which has no link yet; none, if it ends inside a packet."""
    with open(path, "rb") as it:
        octets = it.read()
    try:
        datagrams = [carried_in(internet_in(link, octets), UDP) for _, link, _, octets in packets_of(octets)]
    except Refused:
        return set()
    # a header of UDP, and four octets of GSMTAP before it
    return {int.from_bytes(it[12:14], "big") for it in datagrams}


def inside(asked):
    """Runs the network in this one, which has no devices yet, and returns the status."""
    for words in ("link set lo up", "link set lo multicast on", "route add 224.0.0.0/4 dev lo"):
        subprocess.run(["ip", *words.split()], check=True)
    resource.setrlimit(resource.RLIMIT_FSIZE, (MOST_WRITTEN, MOST_WRITTEN))
    with Network(asked.cells, asked.folder) as network:
        network.begin()
        return network.play(sys.stdin.buffer.read(), asked.seconds)


def cells_of(word):
    """Returns the cells that a word names."""
    return [tuple(map(int, it.split("-"))) for it in word.split(",")]


def main(words):
    if words in (["-h"], ["--help"]):
        print(__doc__, end="")
        return 0
    parser = argparse.ArgumentParser(add_help=False, allow_abbrev=False)
    parser.add_argument("--cells", type=cells_of, default=[(1, 1)])
    parser.add_argument("--seconds", type=float, default=30)
    # what this program says to itself
    parser.add_argument("--inside", action="store_true", help=argparse.SUPPRESS)
    parser.add_argument("folder", type=os.path.abspath)
    asked = parser.parse_args(words)
    if asked.inside:
        return inside(asked)
    os.makedirs(asked.folder, exist_ok=True)
    os.execvp(ALONE[0], [*ALONE, sys.executable, "-B", os.path.realpath(__file__), "--inside", *words])
    return 1


if __name__ == "__main__":
    sys.exit(main(sys.argv[1:]))
