#!/usr/bin/env python3
"""Holds the reader of responses against a second reading (bench/http_model.py) on random mutations of the responses in
crates/http_cases/stdin: bytes that are changed, put in or left out, parts that are doubled, exchanged or cut off, two responses joined.
Each is read whole, byte by byte, cut in two at every place, and in random pieces, and the two have to print the same.

Usage: bench/http_mutations.py [COUNT [SEED]]    (100,000 mutations from seed 1; crates/http_cases has to be built, as `rt run` does)
It prints each mutation on which they differ, and how many there were; its status is then 1, and 2 where the program ended early.
"""
import pathlib
import random
import subprocess
import sys

import http_model

TOP = pathlib.Path(__file__).resolve().parent.parent
RUNNER = TOP / "crates/http_cases/out/http_cases"
BYTES = b"\r\n\r\n\r\n :;,\t0123456789abcdefABCDEFghxX\x00\x01\x7f\xff-_/.%"
LINES = [b"Content-Length: 2\r\n", b"Content-Length: 02\r\n", b"Content-Length: 3\r\n", b"Transfer-Encoding: chunked\r\n",
         b"Transfer-Encoding: gzip\r\n", b"\r\n", b"\n", b"HTTP/1.1 200 OK\r\n", b"HTTP/1.1 100 C\r\n\r\n", b"0\r\n\r\n", b"5\r\nhello\r\n",
         b"A: b\r\n", b"10;x=y\r\n"]
BATCH = 2_000


def mutated(responses, random):
    text = bytearray(random.choice(responses))
    for _ in range(random.choice([0, 1, 1, 1, 2, 3, 5])):
        at, to = sorted(random.randint(0, len(text)) for _ in "12")
        kind = random.randrange(8)
        if kind == 0 and text:
            text[min(at, len(text) - 1)] = random.choice(BYTES)
        elif kind == 1:
            text[at:at] = bytes([random.choice(BYTES)])
        elif kind == 2:
            del text[at:at + 1]
        elif kind == 3:
            text[at:at] = random.choice(LINES)
        elif kind == 4:
            text[at:at] = text[at:min(to, at + 20)]
        elif kind == 5:
            text[at:at + 10] = text[at + 5:at + 10] + text[at:at + 5]
        elif kind == 6:
            del text[at:min(to, at + 20)]
        else:
            text[at:] = random.choice(responses)[random.randint(0, 40):]
    return bytes(text)


def field(data):
    """The bytes as a field of a case."""
    return "".join(f"\\x{byte:02x}" if byte < 32 or byte > 126 or byte in b"\\@" else chr(byte) for byte in data)


def cases_of(data, random):
    flags = random.choice("---h")
    cuts = sorted(random.randint(0, len(data)) for _ in range(random.randint(1, 6)))
    pieces = [data[a:b] for a, b in zip([0, *cuts], [*cuts, len(data)])]
    return ["\t".join(["response", flags, field(data)]), "\t".join(["pieces", flags, *map(field, pieces)])]


def main():
    count = int(sys.argv[1]) if len(sys.argv) > 1 else 100_000
    seed = int(sys.argv[2]) if len(sys.argv) > 2 else 1
    lines = (TOP / "crates/http_cases/stdin").read_text().splitlines()
    responses = [http_model.bytes_of(line.split("\t")[2]) for line in lines if line.startswith("response\t")]
    chance, differ, answers = random.Random(seed), 0, {}
    for start in range(0, count, BATCH):
        cases = [case for _ in range(min(BATCH, count - start)) for case in cases_of(mutated(responses, chance), chance)]
        done = subprocess.run([RUNNER], input="".join(case + "\n" for case in cases).encode(), capture_output=True)
        have = done.stdout.decode().splitlines()
        if done.returncode != 0 or len(have) != len(cases):
            print(f"the runner ended with status {done.returncode} after {len(have)} of {len(cases)} answers: {done.stderr.decode()}")
            return 2
        for case, answer in zip(cases, have):
            want = http_model.printed(case)
            if case.startswith("response"):
                kind = answer.split()[0] if answer[0].isalpha() else "a reply"
                answers[kind] = answers.get(kind, 0) + 1
            if answer != want:
                differ += 1
                print(f"{case}\n  the program: {answer}\n  the model:   {want}")
    print(f"{count} mutations of {len(responses)} responses from seed {seed}, {differ} on which the two differ: "
          + ", ".join(f"{number} {kind}" for kind, number in sorted(answers.items())))
    return 1 if differ else 0


if __name__ == "__main__":
    sys.exit(main())
