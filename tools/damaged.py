#!/usr/bin/env python3
"""Runs the built program on damaged files: bytes changed, cut out, put in, cut off, and pieces of one file in another.

tools/damaged.py [RUNS [SEED [PROGRAM]]] damages a file of six documents, birds.ciff and made files of up to 10 MB, RUNS
times together (20000), and runs every command that reads an index on each. Each run has to end with a status of its
table, to warn the line of that status, and to leave OUT as it has to be: as before with any other status than 0, and
a file that is read and has the printed line with 0. No run may take more than ten times the processor's time of the
one on the file before it was damaged, and none may need more memory than that run and what was read. The last line is
'damaged: N runs, M bad'. It is no part of the gate.
"""
import json
import os
import random
import re
import resource
import shutil
import signal
import sys
import tempfile

TOP = os.path.dirname(os.path.dirname(os.path.abspath(__file__)))
# Two lists over six documents, as they stand in tools/program.sh and the rows of the gate.
SIX = bytes.fromhex(
    """
    06 08 01 10 02 18 06
    17 0a 01 61 10 03 18 03 22 02 10 01 22 04 08 01 10 01 22 04 08 02 10 01
    19 0a 01 62 10 03 18 03 22 04 08 02 10 01 22 04 08 02 10 01 22 04 08 01 10 01
    06 12 02 64 30 18 01
    08 08 01 12 02 64 31 18 01
    08 08 02 12 02 64 32 18 01
    08 08 03 12 02 64 33 18 01
    08 08 04 12 02 64 34 18 01
    08 08 05 12 02 64 35 18 01
    """
)
WARNED = {
    0: rb"",
    3: rb"malformed [0-9]+ (CutShort|BadLength|BadField|BadText|BadCount|BadGap|SameTerm|BadDoc|Trailing|TooMuch)\n",
    6: rb"memory\n",
}
# What a second run of one command may take more by chance: seconds, and kilobytes.
SLACK_SECONDS = 0.25
SLACK_KILOBYTES = 2048
# After so many seconds a run is ended, which is a wrong status.
LONGEST = 120


class Runner:
    """Runs programs from a small process that is made at the start: the peak that the system tells of a program begins
    with that of the process which became it, and this one holds whole files."""

    def __init__(self):
        asked, told = os.pipe(), os.pipe()
        if os.fork() == 0:
            os.close(asked[1])
            os.close(told[0])
            self.serve(os.fdopen(asked[0]), os.fdopen(told[1], "w"))
            os._exit(0)
        os.close(asked[0])
        os.close(told[1])
        self.requests, self.answers = os.fdopen(asked[1], "w"), os.fdopen(told[0])

    def serve(self, requests, answers):
        for line in requests:
            words, printed, warned = json.loads(line)
            child = os.fork()
            if child == 0:
                signal.alarm(LONGEST)
                for name, number in ((printed, 1), (warned, 2)):
                    os.dup2(os.open(name, os.O_WRONLY | os.O_CREAT | os.O_TRUNC), number)
                os.execv(words[0], words)
            _, status, usage = os.wait4(child, 0)
            taken = usage.ru_utime + usage.ru_stime
            print(json.dumps((os.waitstatus_to_exitcode(status), taken, usage.ru_maxrss)), file=answers, flush=True)

    def run(self, words, printed, warned):
        print(json.dumps((words, printed, warned)), file=self.requests, flush=True)
        return json.loads(self.answers.readline())


RUNNER = Runner()


def run(program, words, work):
    """The status, both outputs, the processor's time in seconds and the peak in kilobytes of a run."""
    printed, warned = os.path.join(work, "printed"), os.path.join(work, "warned")
    status, taken, peak = RUNNER.run([program] + words, printed, warned)
    with open(printed, "rb") as file, open(warned, "rb") as other:
        texts = file.read(), other.read()
    return status, *texts, taken, peak


def damaged(draw, data, others):
    """The bytes with one to four damages."""
    data = bytearray(data)
    for _ in range(draw.choice((1, 1, 1, 2, 4))):
        size = len(data)
        at = draw.randrange(size + 1)
        kind = draw.randrange(6)
        if kind == 0 and at < size:
            data[at] = draw.randrange(256)
        elif kind == 1 and at < size:
            data[at] ^= 1 << draw.randrange(8)
        elif kind == 2:
            del data[at : at + draw.choice((1, 1, 2, 10, 1000))]
        elif kind == 3:
            data[at:at] = bytes(draw.choice((0, 0x80, 0xFF, draw.randrange(256))) for _ in range(draw.choice((1, 2, 10))))
        elif kind == 4:
            del data[at:]
        else:
            other = draw.choice(others)
            first = draw.randrange(len(other) + 1)
            data[at : at + draw.randrange(100)] = other[first : first + draw.choice((1, 10, 1000))]
    return bytes(data)


def commands(program, work):
    """The commands that the program knows and that read an index, and whether each writes OUT."""
    file, queries, out = (os.path.join(work, name) for name in ("in", "queries", "out"))
    known = [(["copy", file, out], True), (["report", file], False)]
    known.append((["reorder", file, out, "--leaf", "4", "--depth", "6"], True))
    known.append((["query", file, queries], False))
    known.append((["live", file, out, queries, "--leaf", "4", "--depth", "6", "--readers", "3"], True))
    return [(words, writes) for words, writes in known if run(program, words, work)[0] != 2]


def judge(words, writes, program, work, data, allowed):
    """What is wrong with a run of the command on these bytes, if anything."""
    out = os.path.join(work, "out")
    with open(out, "wb") as file:
        file.write(b"before")
    status, printed, warned, taken, peak = run(program, words, work)
    if status not in WARNED or not re.fullmatch(WARNED[status], warned):
        return f"status {status}, warned {warned[:80]}"
    with open(out, "rb") as file:
        left = file.read()
    if (status != 0 or not writes) and left != b"before":
        return f"status {status}, and OUT was written"
    if status != 0 and printed:
        return f"status {status}, and something was printed"
    if status == 3 and int(warned.split()[1]) > len(data):
        return "the place is behind the file"
    if status == 0 and writes:
        again = run(program, ["copy", out, out + ".again"], work)
        with open(out + ".again", "rb") as file:
            same = file.read() == left
        if again[0] != 0 or not same or again[1].splitlines()[0] != printed.splitlines()[0]:
            return "OUT isn't what was printed"
    if taken > 10 * allowed[0] + SLACK_SECONDS:
        return f"it took {taken:.3f} s, and {allowed[0]:.3f} s before"
    if peak > allowed[1] + len(data) // 1024 + SLACK_KILOBYTES:
        return f"it needed {peak} kB, and {allowed[1]} kB before"
    return None


def files(program, work):
    """The files, each with how often it is damaged of a hundred times."""
    known = [(SIX, 50)]
    with open(os.path.join(TOP, "crates", "rgb", "data", "birds.ciff"), "rb") as file:
        known.append((file.read(), 44))
    for number, share in ((1000, 5), (80000, 1)):
        name = os.path.join(work, "made")
        if run(program, ["make", str(number), name, "--depth", "0"], work)[0] == 0:
            with open(name, "rb") as file:
                known.append((file.read(), share))
    return known


def main():
    runs = int(sys.argv[1]) if len(sys.argv) > 1 else 20000
    draw = random.Random(int(sys.argv[2]) if len(sys.argv) > 2 else 1)
    program = os.path.abspath(sys.argv[3] if len(sys.argv) > 3 else os.path.join(TOP, "crates/rgb/out/rgb"))
    work = tempfile.mkdtemp()
    resource.setrlimit(resource.RLIMIT_CORE, (0, 0))
    source, made, bad, counts = os.path.join(work, "in"), 0, 0, {}
    with open(os.path.join(work, "queries"), "wb") as file:
        file.write(b"a AND NOT b\nw0001 OR NOT w0002\nthe AND bird\n")
    known = files(program, work)
    with open(source, "wb") as file:
        file.write(known[0][0])
    table = commands(program, work)
    for data, share in known:
        with open(source, "wb") as file:
            file.write(data)
        allowed = []
        for words, _ in table:
            first, second = run(program, words, work), run(program, words, work)
            allowed.append((max(first[3], second[3]), max(first[4], second[4])))
        for _ in range(runs * share // 100):
            bytes_ = damaged(draw, data, [other for other, _ in known])
            with open(source, "wb") as file:
                file.write(bytes_)
            for (words, writes), most in zip(table, allowed):
                made += 1
                wrong = judge(words, writes, program, work, bytes_, most)
                if wrong:
                    bad += 1
                    kept = os.path.join(tempfile.gettempdir(), f"damaged-{bad}.ciff")
                    shutil.copy(source, kept)
                    print(f"{words[0]} of {kept}: {wrong}", flush=True)
        counts[len(data)] = runs * share // 100
    shutil.rmtree(work)
    print("files of bytes, and how often each was damaged:", counts, "; commands:", [words[0] for words, _ in table])
    print(f"damaged: {made} runs, {bad} bad")
    sys.exit(1 if bad else 0)


main()
