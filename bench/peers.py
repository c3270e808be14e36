#!/usr/bin/env python3
"""Runs `run` against peers on loopback that go wrong in every way, and against some that go right.

Usage: bench/peers.py [PROGRAM]    (crates/jm_program/out/jm_program where it is not given)
Each peer serves one request of a plan of two samplers; the second asks a peer that answers, so the run is to go on. A line for
each says the code, the message and the milliseconds of the first sample. Three peers fall silent: one in the middle of its
answer, one before it, one before the dial; these take the 30 seconds that a call waits. The last line says how many differed
from docs/use/HTTP.md, and then the status is 1: another code or message, a second sample that failed, another time, or another
exit status than 0.
"""
import collections
import concurrent.futures
import csv
import io
import json
import os
import socket
import struct
import subprocess
import sys
import threading
import time

TOP = os.path.dirname(os.path.dirname(os.path.abspath(__file__)))
PROGRAM = sys.argv[1] if len(sys.argv) > 1 else f"{TOP}/crates/jm_program/out/jm_program"
SECONDS = 90
LIMIT = 30_000
SOON = 5_000
WHOLE = b"HTTP/1.1 200 OK\r\nContent-Length: 5\r\n\r\nhello"
CHUNKS = b"HTTP/1.1 200 OK\r\nTransfer-Encoding: chunked\r\n\r\n"
RIGHT = ("200", "OK")
FAULT, EARLY, LONG = ("0", "fault"), ("0", "end early"), ("0", "too long")
BAD_HEAD, BAD_CHUNK = ("0", "bad head"), ("0", "bad chunk")
ELAPSED, LABEL, CODE, MESSAGE, SUCCESS = 1, 2, 3, 4, 6
NO_SAMPLE = [""] * 10


# What peers do on a connection whose request they have read.

def sends(text, size=65_536):
    def act(peer):
        peer.setsockopt(socket.IPPROTO_TCP, socket.TCP_NODELAY, 1)
        for start in range(0, len(text), size):
            peer.sendall(text[start:start + size])
    return act


def sends_without_end(text, more):
    def act(peer):
        peer.sendall(text)
        while True:
            peer.sendall(more * 1000)
    return act


def stays(text):
    """Sends a text and waits until the other side closes."""
    def act(peer):
        peer.sendall(text)
        peer.recv(1)
    return act


def breaks_off(text):
    """Sends a text and resets the connection."""
    def act(peer):
        peer.sendall(text)
        time.sleep(0.2)
        peer.setsockopt(socket.SOL_SOCKET, socket.SO_LINGER, struct.pack("ii", 1, 0))
    return act


def head_of(peer):
    """Reads a request without a body."""
    text = b""
    while b"\r\n\r\n" not in text:
        piece = peer.recv(65_536)
        if not piece:
            break
        text += piece
    return text


def listener(family=socket.AF_INET, backlog=16):
    listening = socket.socket(family, socket.SOCK_STREAM)
    listening.bind(("::1" if family == socket.AF_INET6 else "127.0.0.1", 0))
    listening.listen(backlog)
    return listening


def serve(listening, act):
    """Serves connections in a thread of its own until the listener is closed."""
    def go():
        while True:
            try:
                peer, _ = listening.accept()
            except OSError:
                return
            with peer:
                try:
                    head_of(peer)
                    act(peer)
                except OSError:
                    pass
    threading.Thread(target=go, daemon=True).start()
    return listening.getsockname()[1]


def refusing():
    """A port at which nothing listens."""
    with listener() as listening:
        return listening.getsockname()[1]


def full():
    """The port of a listener that takes no more connections, since its queue is filled and never emptied; and the sockets that keep it so."""
    listening = listener(backlog=0)
    kept = [listening]
    for _ in range(8):
        asking = socket.socket()
        asking.setblocking(False)
        asking.connect_ex(listening.getsockname())
        kept.append(asking)
    time.sleep(0.2)
    return listening.getsockname()[1], kept


# Peers that answer or end in some way: the name, what the peer does, and what the sample is to be.

PEERS = [
    ("sends a whole response", sends(WHOLE), RIGHT),
    ("sends it byte by byte", sends(WHOLE, 1), RIGHT),
    ("sends it in chunks, byte by byte", sends(CHUNKS + b"5\r\nhello\r\n0\r\n\r\n", 1), RIGHT),
    ("sends a body up to its end", sends(b"HTTP/1.1 200 OK\r\n\r\nhello"), RIGHT),
    ("sends a whole response and stays", stays(WHOLE), RIGHT),
    ("sends a whole response and more", sends(WHOLE + b"x" * 100_000), RIGHT),
    ("closes", sends(b""), EARLY),
    ("sends half a head", sends(b"HTTP/1.1 2"), EARLY),
    ("sends half a body", sends(WHOLE[:-1]), EARLY),
    ("sends half a chunk", sends(CHUNKS + b"5\r\nhe"), EARLY),
    ("sends a head without end", sends_without_end(b"HTTP/1.1 200 OK\r\n", b"a: b\r\n"), LONG),
    ("sends a line without end", sends_without_end(b"", b"x"), LONG),
    ("sends a body without end", sends_without_end(b"HTTP/1.1 200 OK\r\n\r\n", b"x"), LONG),
    ("sends chunks without end", sends_without_end(CHUNKS, b"5\r\nhello\r\n"), LONG),
    ("sends a trailer part without end", sends_without_end(CHUNKS + b"0\r\n", b"a: b\r\n"), LONG),
    ("speaks another protocol", sends(b"SSH-2.0-x\r\n\r\n"), BAD_HEAD),
    ("sends a bad chunk", sends(CHUNKS + b"g\r\n"), BAD_CHUNK),
    ("breaks off", breaks_off(b""), FAULT),
    ("breaks off after half a head", breaks_off(b"HTTP/1.1 2"), FAULT),
]


# Tries.

Try = collections.namedtuple("Try", "name host port want method least most", defaults=("GET", 0, SOON))


def tries(good):
    """All tries, and the sockets that must stay open for them. At the port `good` a peer answers."""
    local = "127.0.0.1"
    dead, kept = full()
    silent = {"least": LIMIT, "most": LIMIT + SOON}
    made = [Try(name, local, serve(listener(), act), want) for name, act, want in PEERS] + [
        Try("answers HEAD without a body", local, serve(listener(), stays(WHOLE[:-5])), RIGHT, method="HEAD"),
        Try("refuses", local, refusing(), FAULT),
        Try("never answers", local, serve(listener(), stays(b"")), FAULT, **silent),
        Try("stops in the middle", local, serve(listener(), stays(WHOLE[:-1])), FAULT, **silent),
        Try("does not answer the dial", local, dead, FAULT, **silent),
        Try("is asked for by name", "localhost", good, RIGHT),
        Try("has no such name", "no-such-name.invalid", good, FAULT, most=LIMIT + SOON),
    ]
    try:
        made.append(Try("has an address of version 6", "[::1]", serve(listener(socket.AF_INET6), sends(WHOLE)), RIGHT))
    except OSError as error:
        print(f"not tried, an address of version 6: {error}")
    return made, kept


def plan(one, good):
    def http(name, host, port, **props):
        return {"type": "Http", "name": name, "props": {"host": host, "port": str(port), **props}}
    samplers = [http("first", one.host, one.port, method=one.method), http("second", "127.0.0.1", good)]
    return json.dumps({"type": "TestPlan", "children": [{"type": "ThreadGroup", "name": "TG", "children": samplers}]})


def tried(one, good):
    """The first sample of a run, and what is wrong with the run."""
    try:
        result = subprocess.run([PROGRAM, "run"], input=plan(one, good), capture_output=True, text=True, timeout=SECONDS)
    except subprocess.TimeoutExpired:
        return NO_SAMPLE, f"no end within {SECONDS} seconds"
    samples = list(csv.reader(io.StringIO(result.stdout)))[1:]
    if result.returncode != 0 or [sample[LABEL] for sample in samples] != ["first", "second"]:
        return NO_SAMPLE, f"status {result.returncode}, {result.stdout[-200:]!r} {result.stderr[-200:]!r}"
    first, second = samples
    if (first[CODE], first[MESSAGE]) != one.want or first[SUCCESS] != ("true" if one.want == RIGHT else "false"):
        return first, f"{one.want[0]} {one.want[1]} was to come"
    if not one.least <= int(first[ELAPSED]) <= one.most:
        return first, f"{one.least} to {one.most} ms were to pass"
    if (second[CODE], second[MESSAGE], second[SUCCESS]) != (*RIGHT, "true"):
        return first, f"the second sample is {second}"
    return first, None


def main():
    good = serve(listener(backlog=64), sends(WHOLE))
    made, kept = tries(good)
    with concurrent.futures.ThreadPoolExecutor(len(made)) as pool:
        results = list(pool.map(lambda one: tried(one, good), made))
    for socket_kept in kept:
        socket_kept.close()
    for one, (first, fault) in zip(made, results):
        print(f"{one.name}: {first[CODE]} {first[MESSAGE]} after {first[ELAPSED]} ms{'' if fault is None else ': ' + fault}")
    wrong = sum(fault is not None for _, fault in results)
    print(f"{len(made)} peers, {wrong} differed")
    return 1 if wrong else 0


if __name__ == "__main__":
    sys.exit(main())
