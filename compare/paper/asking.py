"""Asks the program bench, and holds its answers to those that the papers give (reader.py, hexes.py); runs the others."""
import os
import subprocess
import sys

from reader import Refused, hexed, listed, read, saved

os.chdir(os.path.join(os.path.dirname(os.path.abspath(__file__)), "..", ".."))
# The most bytes or words of a request or an answer.
SHOWN = 1024


class Enough(Exception):
    """As many requests as are wanted."""


class Bench:
    """The requests so far and the answers that the papers give, with the memories as they are then."""

    most = None

    def __init__(self):
        self.requests, self.answers = [], []

    def ask(self, request, answer):
        if len(self.requests) == self.most:
            raise Enough(self)
        self.requests.append(request)
        self.answers.append(answer)

    def bare(self, e, s):
        self.eeprom, self.settings = bytearray(b"\xFF" * e), [0] * s
        self.ask(f"lend {e} {s}", "done")
        self.ask("bare 10 100 Generic 0", "10 100 1 13 Generic 0")

    def look(self):
        """Both memories, or of large ones the last that a request shows."""
        e, s = (max(0, len(memory) - SHOWN) for memory in (self.eeprom, self.settings))
        self.ask(f"peek {e} {SHOWN}", hexed(bytes(self.eeprom[e:])))
        self.ask(f"peek_words {s} {SHOWN}", " ".join(f"{w:08X}" for w in self.settings[s:]) or "-")

    def replay(self, stream):
        try:
            for kind, addr, what in read(stream, (len(self.eeprom), len(self.settings)))[1]:
                if kind == "memory":
                    self.eeprom[addr:addr + len(what)] = what
                else:
                    self.settings[addr] = what
            self.ask(f"replay {hexed(stream)}", "done")
        except Refused as refused:
            self.ask(f"replay {hexed(stream)}", f"refused {refused}")
        self.look()

    def judge(self, stream):
        try:
            self.ask(f"judge {hexed(stream)}", "%d %d" % read(stream)[0])
        except Refused as refused:
            self.ask(f"judge {hexed(stream)}", f"refused {refused}")

    def listing(self, stream, room):
        room = min(room, SHOWN)
        try:
            text = listed(stream)
            if len(text) > room:
                raise Refused(6)
            self.ask(f"listing {hexed(stream)} {room}", f"{len(text)} {hexed(text + bytes([0xEE]) * (room - len(text)))}")
        except Refused as refused:
            self.ask(f"listing {hexed(stream)} {room}", f"refused {refused} {hexed(bytes([0xEE]) * room)}")

    def all(self, stream, room=200):
        if len(stream) <= SHOWN:
            self.replay(stream)
            self.judge(stream)
            self.listing(stream, room)

    def save(self):
        whole = b"".join(saved(self.eeprom, self.settings))
        for room in (len(whole) - 1, len(whole), len(whole) + 2):
            if 0 <= room <= SHOWN:
                lent = b"\xEE" * room
                said = f"refused 6 {hexed(lent)}" if room < len(whole) else f"{len(whole)} {hexed(whole + lent[len(whole):])}"
                self.ask(f"save {room}", said)
        return whole


def port(name, requests):
    """The port's answers, of which there are none where the program ends badly."""
    program = os.environ.get("BENCH", "compare/tools/start bench").split()
    run = subprocess.run(program, input="".join(request + "\n" for request in requests), stdout=subprocess.PIPE, text=True)
    if run.returncode:
        sys.exit(f"{name}: bench ended with {run.returncode}")
    return run.stdout.split("\n")[:-1]


def ran(program, words, given):
    """What a program of the port writes, of which nothing is taken where it ends badly."""
    command = os.environ.get(program.upper(), f"compare/tools/start {program}").split()
    run = subprocess.run([*command, *words], input=given, stdout=subprocess.PIPE)
    return run.stdout if run.returncode == 0 else None


def hold(name, asked):
    """Compares what a seed asks; the words of the command are the seed and how many of the first requests are made."""
    seed = int(sys.argv[1]) if len(sys.argv) > 1 else 1
    Bench.most = int(sys.argv[2]) if len(sys.argv) > 2 else None
    try:
        bench = asked(seed)
    except Enough as enough:
        bench, = enough.args
    trials = list(zip(bench.requests, bench.answers))
    said = port(name, [request for request, _ in trials])
    wrong = [(*trial, answer) for trial, answer in zip(trials, said) if trial[1] != answer]
    for request, answer, other in wrong[:10]:
        print(f"{name}: {request}\n  the paper: {answer}\n  the port:  {other}")
    differences = len(wrong) + abs(len(said) - len(trials))
    print(f"{name}: {len(trials)} requests, {differences} differences")
    sys.exit(1 if differences or not trials else 0)
