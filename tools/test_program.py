#!/usr/bin/python3
"""Tests of the built program as a process: where a standard file is closed, where threads share a lock, and how soon a run ends.

Usage: tools/test_program.py [UNITTEST WORDS]    (PROGRAM in the environment is run in place of ./jm)
"""
import csv
import json
import os
import pathlib
import socketserver
import subprocess
import tempfile
import threading
import time
import unittest

PROGRAM = os.environ.get("PROGRAM", str(pathlib.Path(__file__).resolve().parent.parent / "jm"))


class Peer(socketserver.BaseRequestHandler):
    """Answers one request after the server's delay, and then keeps what else comes until the other side hangs up."""

    def handle(self):
        came = b""
        while b"\r\n\r\n" not in came:
            more = self.request.recv(4096)
            if not more:
                return
            came += more
        self.server.hold()
        self.request.sendall(b"HTTP/1.1 %d Word\r\nContent-Length: 2\r\n\r\nok" % self.server.code)
        while more := self.request.recv(4096):
            came += more
        self.server.came.append(came)


class Server(socketserver.ThreadingTCPServer):
    """Answers with this code after a delay in seconds. It counts the requests that are open at once."""
    allow_reuse_address = True
    request_queue_size = 128

    def __init__(self, code, delay):
        super().__init__(("127.0.0.1", 0), Peer)
        self.code, self.delay = code, delay
        self.came = []
        self.lock = threading.Lock()
        self.open = self.most_open = 0

    def hold(self):
        with self.lock:
            self.open += 1
            self.most_open = max(self.most_open, self.open)
        time.sleep(self.delay)
        with self.lock:
            self.open -= 1

    def __enter__(self):
        threading.Thread(target=self.serve_forever).start()
        return self

    def __exit__(self, *_):
        self.shutdown()
        self.server_close()


def plan_for(server, section=None, **props):
    sampler = {"type": "Http", "name": "S", "props": {"host": "127.0.0.1", "port": server.server_address[1], "path": "/a"}}
    child = {"type": "CriticalSection", "props": {"lock": section}, "children": [sampler]} if section else sampler
    return json.dumps({"type": "TestPlan", "children": [{"type": "ThreadGroup", "name": "TG", "props": props, "children": [child]}]})


def run(text, *words, closed=()):
    """Runs a plan with these standard files closed: its status, its result lines and the ends of its threads."""
    with tempfile.TemporaryFile("w+") as source, tempfile.TemporaryFile("w+") as results:
        source.write(text)
        source.seek(0)
        done = subprocess.run([PROGRAM, "run", *words], stdin=source, stdout=results, stderr=subprocess.PIPE, timeout=60,
                              preexec_fn=lambda: [os.close(number) for number in closed])
        results.seek(0)
        ends = [row[2] for row in csv.reader(done.stderr.decode().splitlines()) if row[0] == "end"]
        return done.returncode, list(csv.DictReader(results)), ends


class ClosedFiles(unittest.TestCase):
    """A socket must not get the number of a standard file that is closed: what is printed would go to the server."""
    ROUNDS = 5

    def check(self, closed, status):
        with Server(200, 0.05) as server:
            found, *_ = run(plan_for(server, loops=self.ROUNDS), "--every", "10", closed=closed)
        self.assertEqual(found, status)
        self.assertEqual(len(server.came), self.ROUNDS)
        for text in server.came:
            self.assertTrue(text.startswith(b"GET /a HTTP/1.1\r\n") and text.endswith(b"\r\n\r\n"), text)

    def test_all_open(self):
        self.check([], 0)

    def test_no_standard_error(self):
        self.check([2], 5)

    def test_no_standard_output(self):
        self.check([1], 5)

    def test_neither(self):
        self.check([1, 2], 5)


class Sections(unittest.TestCase):
    """Requests inside sections of one lock never overlap, however a section is left, and nobody waits for ever."""

    def test_without_a_section_requests_overlap(self):
        with Server(200, 0.01) as server:
            status, lines, _ = run(plan_for(server, threads=8, loops=10))
        self.assertEqual((status, len(lines)), (0, 80))
        self.assertGreater(server.most_open, 1)

    def test_64_threads_at_one_lock_for_a_second(self):
        with Server(200, 0.001) as server:
            status, lines, ends = run(plan_for(server, "l", threads=64, loops=16))
        self.assertEqual((status, len(lines), server.most_open), (0, 1024, 1))
        self.assertEqual(ends, ["Completed"] * 64)

    def failing(self, on_error):
        with Server(500, 0.002) as server:
            status, lines, ends = run(plan_for(server, "l", threads=8, loops=5, onError=on_error))
        self.assertEqual((status, server.most_open), (0, 1))
        self.assertEqual({line["success"] for line in lines}, {"false"})
        self.assertEqual(len(lines), len(server.came))
        return len(lines), ends

    def test_left_by_the_next_loop(self):
        self.assertEqual(self.failing("nextLoop"), (40, ["Completed"] * 8))

    def test_left_by_the_end_of_its_thread(self):
        self.assertEqual(self.failing("stopThread"), (8, ["StopThread"] * 8))

    def test_left_by_the_end_of_the_test(self):
        count, ends = self.failing("stopTest")
        # A thread that is let in before stop is raised has a sample too, and then ends as it finds the test: by its own failure or stopped.
        self.assertIn("StopTest", ends)
        self.assertEqual(len(ends), 8)
        self.assertLessEqual(set(ends), {"StopTest", "Stopped"})
        self.assertLessEqual(ends.count("StopTest"), count)
        self.assertLessEqual(count, 8)

    def test_left_at_the_budget(self):
        with Server(200, 0.001) as server:
            status, lines, ends = run(plan_for(server, "l", threads=8, loops=5), "--samples", "3")
        # Entering a section takes a unit, and so does its sampler: the second section is entered and has none left for it.
        self.assertEqual((status, len(lines), server.most_open), (0, 8, 1))
        self.assertEqual(ends, ["SampleLimit"] * 8)


class AtOnce(unittest.TestCase):
    """A run is over when its threads are, however long an interval is."""

    def test_an_interval_of_an_hour_is_cut_short(self):
        sampler = {"type": "Script", "name": "S", "props": {"replies": [{}]}}
        text = json.dumps({"type": "TestPlan", "children": [{"type": "ThreadGroup", "props": {"threads": 4}, "children": [sampler]}]})
        took = []
        for _ in range(5):
            start = time.monotonic()
            status, lines, ends = run(text, "--every", "3600000")
            took.append(time.monotonic() - start)
            self.assertEqual((status, len(lines), ends), (0, 4, ["Completed"] * 4))
        # The end of the threads is noticed within 20 ms; the rest is left to the start and the end of a process on a machine at work.
        self.assertLess(min(took), 0.5)


if __name__ == "__main__":
    unittest.main()
