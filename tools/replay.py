#!/usr/bin/env python3
"""Sends what a broadcast centre sent to a base station controller once more, at the same times, over TCP.

Usage: replay.py [OPTIONS] < CAPTURE    CAPTURE has the link (CBSP of 3GPP TS 48.049, TCP port 48049), as `tcpdump -w`
                                        records it
       replay.py --help                 prints this

    --bsc IPV4           only what went to the controller of this address in the capture
    --to ADDRESS         the controller that it is sent to now, 127.0.0.1 if it isn't given
    --port PORT          its port, 48049 if it isn't given
    --seconds SECONDS    the connection ends after so many seconds, whatever is left by then; if it isn't given, 2 after
                         the last message

The first message is sent at once, and each other one so many seconds after it as in the capture. Each message that is
sent or comes is a line: the seconds since the first, who sent it, its name, and its identifier and serial numbers. The
status is 1 if there is nothing to send, or if the controller ends the connection or can't be reached within 10 seconds.
"""
import argparse
import os
import socket
import sys
import time

sys.dont_write_bytecode = True
sys.path.insert(0, os.path.dirname(os.path.realpath(__file__)))
from gsm import Refused  # noqa: E402
from link_captures import OF_CENTRE  # noqa: E402
from orders_reference import Unread, elements_of  # noqa: E402
from streams_reference import PORT, messages_of  # noqa: E402

SECOND = 10 ** 9
# in seconds: how long a connection may take, and how long one stays open after the last message
PATIENCE, AFTER = 10, 2
# the names of messages by their types, from 1 (clause 8.2.2)
NAMES = (
    "WRITE-REPLACE", "WRITE-REPLACE COMPLETE", "WRITE-REPLACE FAILURE", "KILL", "KILL COMPLETE", "KILL FAILURE",
    "LOAD QUERY", "LOAD QUERY COMPLETE", "LOAD QUERY FAILURE", "MESSAGE STATUS QUERY", "MESSAGE STATUS QUERY COMPLETE",
    "MESSAGE STATUS QUERY FAILURE", "SET-DRX", "SET-DRX COMPLETE", "SET-DRX FAILURE", "RESET", "RESET COMPLETE",
    "RESET FAILURE", "RESTART", "FAILURE", "ERROR INDICATION", "KEEP-ALIVE", "KEEP-ALIVE COMPLETE",
)


def orders_in(capture, bsc=None):
    """Returns the messages of the centre in a capture, each as the seconds since the first and its octets."""
    heard = list(messages_of(capture))
    # the port of the link may be the controller's or the centre's, so what is sent says who sends
    ways = {it.way for it in heard if it.octets[0] in OF_CENTRE}
    sent = [it for it in heard if it.way in ways and bsc in (None, it.way[2])]
    if not sent:
        raise Refused("no message of a centre")
    if len({it.way[2] for it in sent}) > 1:
        raise Refused("several controllers: --bsc takes one")
    if None in (it.time for it in sent):
        raise Refused("no time")
    # a link has a connection for each cell, one after the other, as `warnc link` writes it
    sent.sort(key=lambda it: it.time)
    return [((it.time - sent[0].time) / SECOND, it.octets) for it in sent]


def said(octets):
    """Returns what a message is, in words."""
    name = NAMES[octets[0] - 1] if 1 <= octets[0] <= len(NAMES) else f"type {octets[0]:02x}"
    try:
        elements = dict(reversed(list(elements_of(octets[4:]))))
    except Unread:
        return f"{name}, which can't be read"
    words = [name]
    if 0x0E in elements:
        words.append(str(int.from_bytes(elements[0x0E], "big")))
    return " ".join(words + [elements[it].hex() for it in (0x03, 0x02) if it in elements])


def tell(began, sender, octets):
    """Prints a message."""
    print(f"{time.monotonic() - began:.3f} {sender} {said(octets)}", flush=True)


class Answers:
    """What comes over a connection, message by message."""

    def __init__(self, connection):
        self.connection, self.octets, self.is_over = connection, b"", False

    def within(self, seconds):
        """Yields the messages that come within so many seconds."""
        end = time.monotonic() + seconds
        while not self.is_over:
            self.connection.settimeout(max(0.001, end - time.monotonic()))
            try:
                came = self.connection.recv(65536)
            except TimeoutError:
                return
            self.is_over, self.octets = not came, self.octets + came
            while len(self.octets) >= 4 and len(self.octets) >= 4 + int.from_bytes(self.octets[1:4], "big"):
                length = 4 + int.from_bytes(self.octets[1:4], "big")
                yield self.octets[:length]
                self.octets = self.octets[length:]
            if time.monotonic() >= end:
                return


def replay(orders, connection, seconds):
    """Sends messages at their times, tells what comes, and returns whether the connection lasted."""
    answers, began = Answers(connection), time.monotonic()
    for at, octets in [*((at, octets) for at, octets in orders if at <= seconds), (seconds, None)]:
        for it in answers.within(began + at - time.monotonic()):
            tell(began, "controller", it)
        if answers.is_over:
            print("replay: the controller ended the connection", file=sys.stderr)
            return False
        if octets is not None:
            connection.settimeout(PATIENCE)
            connection.sendall(octets)
            tell(began, "centre", octets)
    return True


def connected(address):
    """Returns a connection to a controller, which may still be beginning."""
    end = time.monotonic() + PATIENCE
    while True:
        try:
            return socket.create_connection(address, PATIENCE)
        except ConnectionRefusedError:
            if time.monotonic() > end:
                raise
            time.sleep(0.1)


def address_of(word):
    """Returns the octets of an address."""
    try:
        return socket.inet_aton(word)
    except OSError:
        raise argparse.ArgumentTypeError(f"no address as 127.0.0.1: {word}") from None


def main(words):
    if words in (["-h"], ["--help"]):
        print(__doc__, end="")
        return 0
    parser = argparse.ArgumentParser(add_help=False, allow_abbrev=False)
    parser.add_argument("--bsc", type=address_of)
    parser.add_argument("--to", default="127.0.0.1")
    parser.add_argument("--port", type=int, default=PORT)
    parser.add_argument("--seconds", type=float)
    asked = parser.parse_args(words)
    try:
        orders = orders_in(sys.stdin.buffer.read(), asked.bsc)
        seconds = orders[-1][0] + AFTER if asked.seconds is None else asked.seconds
        with connected((asked.to, asked.port)) as connection:
            return 0 if replay(orders, connection, seconds) else 1
    except (Refused, OSError) as why:
        print(f"replay: {why}", file=sys.stderr)
        return 1


if __name__ == "__main__":
    sys.exit(main(sys.argv[1:]))
