#!/usr/bin/env python3
"""Writes samples/night.txt: a night of 8 hours on 4 inputs, one call a line.

Usage: samples/make_night.py [PROGRAM [ARGUMENT..]]

The calls are made for reading: ticks of 1 s where something happens, of 10 s in the
quiet hours between. Every run writes the same bytes: the noise comes from a counter.

A mixer reports with every tick the delay that it applies, which is the last SetDelay
it was sent. So the calls go twice through PROGRAM (crates/supervise/out/supervise of
the repository, or the words of the variable PORT): first with 0 as every applied delay,
for the SetDelay commands, then with the delays of those commands from the next call on.
(The applied delay decides about late events only, so the commands are the same.)"""
import os
import pathlib
import shlex
import struct
import subprocess
import sys

HERE = pathlib.Path(__file__).resolve().parent
SECOND = 1_000_000_000
INPUTS = 4


def bits(x):
    """A double as the protocol writes it."""
    return format(struct.unpack("<Q", struct.pack("<d", x))[0], "x")


class Noise:
    """Numbers that look random and are the same in every run."""

    def __init__(self):
        self.state = 1

    def upto(self, most):
        self.state = (self.state * 6364136223846793005 + 1442695040888963407) % 2**64
        return (self.state >> 33) % (most + 1)


class Input:
    """The world of one input: what the host sees of its flow."""

    def __init__(self, quiet):
        self.quiet = quiet  # the lag around which a quiet flow breathes, in samples
        self.inode = None  # the flow's data file, none where the flow is not there
        self.opens = True  # whether the reader opens
        self.head = 0  # how far the writer has come, in samples
        self.writing = True  # whether it goes on
        self.spike = 0  # added to the largest lag of a tick
        self.read = False  # whether the mixer read from it up to this tick

    def open(self):
        self.read = self.inode is not None and self.opens


class Night:
    def __init__(self):
        self.lines = []
        self.now = 0  # seconds from the start of the night
        self.noise = Noise()
        self.world = [Input(380), Input(540), Input(400), Input(300)]

    def say(self, line):
        self.lines.append(line)

    # ---- the calls

    def new(self):
        """Document 01's settings: offset 480, maximum 4,800, margin 96, share 50 percent,
        hold 30 s, window 10 s; W 48, stall 5 s, no confirmation. All inputs automatic.
        Flow c3 had 600 samples the night before."""
        self.say(
            f"new {self.at()} {INPUTS} 480 4800 48 {30 * SECOND} {10 * SECOND} {5 * SECOND}"
            f" 96 {bits(50.0)} 0 A A A A 1 c3=600"
        )

    def at(self):
        return self.now * SECOND

    def route(self, i, flow):
        """To a flow in domain 7, or to none."""
        w = self.world[i]
        inode = "-" if w.inode is None else w.inode
        channels = 2 if w.opens else "-"
        target = "-" if flow is None else f"{flow}/7"
        self.say(f"route {self.at()} {i} {target} {inode} 1 {channels} {w.head}")
        w.open()

    def lags(self, i):
        """Three lags of a quiet flow, or what a spike makes of the last of them; none
        where nothing is written or read."""
        w = self.world[i]
        if not w.read or not w.writing:
            return []
        some = [w.quiet + 20 * (k - 1) + self.noise.upto(24) for k in range(3)]
        if w.spike:
            some[2] = w.quiet + w.spike - self.noise.upto(200)
        return some

    def tick_line(self, applied=None):
        """A tick of all four; `applied` names another delay for input 0."""
        looks, lags = [], []
        for i, w in enumerate(self.world):
            own = self.lags(i)
            inode = "-" if w.inode is None else w.inode
            channels = 2 if w.opens else "-"
            delay = "{" + str(i) + "}" if i or applied is None else applied
            looks.append(f"{inode},{inode},1,{channels},{w.head},{delay},{len(own)}")
            lags += own
        return " ".join(["tick", str(self.at()), *looks, "L", *map(str, lags)])

    def tick(self, step):
        self.now += step
        for w in self.world:
            if w.inode is not None and w.writing:
                w.head += 48_000 * step
        self.say(self.tick_line())
        for w in self.world:
            w.open()

    # ---- how time goes on

    def seconds(self, until):
        """Ticks of 1 s up to a time."""
        while self.now < until:
            self.tick(1)

    def quiet(self, until):
        """Ticks of 10 s up to a time, with a look at the inputs every half hour."""
        while self.now < until:
            self.tick(min(10, until - self.now))
            if self.now % 1800 == 0:
                self.look()

    def look(self):
        for i in range(INPUTS):
            self.say(f"status {i} {{{i}}} 2")
        self.say(f"settled {self.at()} 0")
        self.say("has 1 2 2")


def time(hours, minutes, seconds=0):
    return hours * 3600 + minutes * 60 + seconds


def night():
    n = Night()
    a, b, c, d = n.world
    n.say("status 0 0 2")  # before `new` there is nothing to ask: a bad line
    n.say("new 0 17 480 4800 48 30000000000 10000000000 5000000000 96 4049000000000000 0" + 17 * " A" + " 0")  # refusal 1
    n.new()
    n.tick(1)

    # Evening: four routes. Flow b2 is not there yet; the reader of d4 does not open at first.
    n.seconds(2)
    a.inode = 101
    n.route(0, "a1")
    n.seconds(3)
    n.route(1, "b2")
    n.seconds(4)
    c.inode = 103
    n.route(2, "c3")
    n.seconds(5)
    d.inode, d.opens = 104, False
    n.route(3, "d4")
    n.seconds(8)
    d.opens = True
    n.seconds(20)
    b.inode = 102
    n.seconds(90)
    n.say(f"route {n.at()} 9 a1/7 101 1 2 0")  # refusal 7: no such input
    n.route(0, "a1")  # an equal route does nothing
    n.quiet(time(1, 10))

    # A spike: for 40 s one lag in a tick comes up to 2,500 samples late; then nothing.
    n.seconds(time(1, 10, 5))
    a.spike = 2500
    n.seconds(time(1, 10, 45))
    a.spike = 0
    n.seconds(time(1, 12))
    n.say(f"confirm {n.at()} 0")  # refusal 13: nothing is pending
    n.quiet(time(2, 30))

    # A stall: the writer of b2 stops for 20 s. It comes back with a lag that no delay covers.
    n.seconds(time(2, 30, 5))
    b.writing = False
    n.seconds(time(2, 30, 25))
    b.writing, b.spike = True, 9000
    n.seconds(time(2, 30, 26))
    b.spike = 0
    n.seconds(time(2, 31, 30))
    n.say("!5 " + n.tick_line())  # refusal 5: every list one place short
    n.quiet(time(3, 20))

    # b2 vanishes and is created anew 12 s later, under another inode.
    n.seconds(time(3, 20, 5))
    b.inode = None
    n.seconds(time(3, 20, 17))
    b.inode, b.head = 202, 0
    n.seconds(time(3, 21))
    n.say(n.tick_line(applied=5000))  # refusal 10: an applied delay above the maximum
    n.quiet(time(4, 0))

    # A manual delay of 20 ms for input 3, 20 minutes long; 150 ms is above the maximum.
    n.say(f"update {n.at()} 3 M{bits(150.0)}")  # refusal 12
    n.say(f"update {n.at()} 3 M{bits(20.0)}")
    n.seconds(time(4, 0, 30))
    n.quiet(time(4, 20))
    n.say(f"update {n.at()} 3 A")
    n.seconds(time(4, 21))
    n.quiet(time(4, 40))

    # Input 2 goes to another flow, with longer lags, for 20 minutes, and back: c3 begins
    # with the delay that is remembered for it.
    c.inode, c.quiet = 105, 900
    n.route(2, "e5")
    n.seconds(time(4, 41))
    n.quiet(time(5, 0))
    c.inode, c.quiet = 103, 400
    n.route(2, "c3")
    n.seconds(time(5, 1))
    n.quiet(time(5, 30))
    c.inode, c.quiet = 105, 900
    n.route(2, "e5")
    n.seconds(time(5, 31))

    # a1 is created anew between two ticks; a short spike follows.
    a.inode, a.head = 301, 0
    n.seconds(time(5, 32))
    a.spike = 1200
    n.seconds(time(5, 32, 3))
    a.spike = 0
    n.seconds(time(5, 34))
    n.say(f"settled {4 * 10**18 + 1} 0")  # refusal 8: a time above 4 times 10^18
    n.say("snore 0 1")  # a bad line
    n.quiet(time(7, 59, 50))

    # Morning: input 3 is routed to none; a last look.
    n.tick(10)
    d.inode = None
    n.route(3, None)
    n.tick(1)
    n.look()
    for i in range(1, INPUTS):
        n.say(f"settled {n.at()} {i}")
    return n.lines


def answers(program, lines):
    done = subprocess.run(program, input="\n".join(lines) + "\n", capture_output=True, text=True, check=True)
    return done.stdout.splitlines()


def filled(line, delays):
    for i, delay in enumerate(delays):
        line = line.replace("{" + str(i) + "}", str(delay))
    return line


def main():
    program = sys.argv[1:] or shlex.split(os.environ.get("PORT", "")) or [str(HERE.parent / "crates/supervise/out/supervise")]
    lines = night()
    found = answers(program, [filled(line, [0] * INPUTS) for line in lines])
    delays, out = [0] * INPUTS, []
    for line, answer in zip(lines, found):
        out.append(filled(line, delays))
        words = answer.split(" ")
        if words[0] == "ok" and "C" in words and "D" in words:
            for command in words[words.index("C") + 1 : words.index("D")]:
                kind, i, word = map(int, command.split("."))
                if kind == 3:
                    delays[i] = word
    (HERE / "night.txt").write_text("\n".join(out) + "\n")
    print(f"samples/night.txt: {len(out)} calls")


main()
