"""The delay file of document 02, request 2: read, written, loaded again."""
import pathlib

from replay.supervisor import Supervisor, manual, new_line
from replay.words import *


def file_of(entries, mark=b"DLY", version=1, count=None):
    """The bytes of a file, or of one with a wrong head. A flow is a number."""
    count = len(entries) if count is None else count
    head = mark + struct.pack("<HH", version, count)
    return head + b"".join(flow.to_bytes(16, "big") + struct.pack("<I", delay) for flow, delay in entries)


def read(file):
    return "dread1 " + (file.hex() or "-")


def loaded(entries):
    """The same entries as `new` takes them."""
    return [(format(flow, "x"), delay) for flow, delay in entries]


A, B = 0x0A << 120 | 5, 0xFF << 120 | 7
TWO = [(A, 0x01020304), (B, U32)]
# 64 flows that begin alike: of each the eighth, the ninth or the last byte is its own.
MANY = sorted({k << 64 | j << 56 | i for k in range(4) for j in range(4) for i in range(4)})
ALL = [(flow, 1000 * k) for k, flow in enumerate(MANY)]


def reading():
    section("the sample's delay file")
    say(read((pathlib.Path(__file__).resolve().parents[2] / "samples" / "ward.dly").read_bytes()))

    section("a delay file read: of 0, 1, 2, 64 flows")
    for entries in [[], [(0, 0)], [(1, U32)], [(2**128 - 1, 1)], [(0x123456789ABCDEF, 480)], TWO, ALL]:
        say(read(file_of(entries)))
    say(read(file_of([(0, 0), (1, 0)])), read(file_of([(k << 120 | 0xFF - k, k) for k in range(3)])))

    section("a delay file read: every beginning of one, each byte changed (19, 20)")
    good = file_of(TWO)
    say(*(read(good[:n]) for n in range(len(good) + 1)))
    for at in range(len(good)):
        for by in (1, 255) if at < 7 else (1,):
            say(read(good[:at] + bytes([(good[at] + by) % 256]) + good[at + 1 :]))

    section("19: mark, version, count, length")
    say(*(read(file_of(TWO, mark=m)) for m in (b"dly", b"DLZ", b"YLD", b"\0\0\0", b"DL", b"DLYY", b"")))
    say(*(read(file_of(TWO, version=v)) for v in (0, 2, 256, 257, 65535)))
    say(*(read(file_of(TWO, count=c)) for c in (0, 1, 3, 64, 65, 512, 258, 65535)))
    say(*(read(file_of(ALL, count=c)) for c in (0, 1, 63, 65, 16384, 320)))
    more = ALL + [(2**127, 5)]
    say(read(file_of(more)), read(file_of(more, count=64)), read(file_of(ALL[:-1], count=64)))
    for after in [b"\0", b"D", bytes(19), bytes(20), bytes(21), good]:
        say(read(good + after))
    say(read(file_of([]) + b"\0"), read(file_of(ALL) + b"\0"), read(file_of(ALL)[:-1]))
    # Longer than any edition of the file, up to 1,287 and 1,291 bytes and beyond
    full = file_of(ALL)
    say(*(read(full + bytes(n)) for n in (3, 4, 5, 6, 20, 1287, 3000)), read(bytes(1292)), read(bytes(1307)))
    say(read(file_of(ALL * 2)), read(file_of(ALL, count=65) + bytes(20)))

    section("20: flows that do not rise")
    say(read(file_of([(5, 1), (5, 1)])), read(file_of([(5, 1), (5, 2)])), read(file_of([(5, 1), (4, 1)])))
    say(read(file_of([(0, 1), (0, 1)])), read(file_of(TWO[::-1])), read(file_of([(1, 1), (3, 1), (2, 1)])))
    # Only the first byte that differs counts: the first, the eighth, the ninth, the last.
    for at in (0, 7, 8, 15):
        step_up, rest = 1 << 8 * (15 - at), (1 << 8 * (15 - at)) - 1
        say(
            read(file_of([(rest, 9), (step_up, 3)])), read(file_of([(step_up, 3), (rest, 9)])),
            read(file_of([(step_up, 3), (2 * step_up, 9)])), read(file_of([(2 * step_up, 3), (step_up, 9)])),
        )
    swapped = ALL[:]
    swapped[62], swapped[63] = swapped[63], swapped[62]
    say(read(file_of(swapped)), read(file_of(ALL[:63] + ALL[62:63])), read(file_of(ALL[:1] + ALL[:63])))

    section("19 before 5, 5 before 20")
    say(short(read(good)), short(read(file_of([]))), short(read(file_of(ALL))), short(read(good[:-1])))
    say(short(read(b"")), short(read(file_of(TWO[::-1]))), short(read(file_of(TWO[::-1], version=2))))

    section("a delay file that cannot be read")
    word = good.hex()
    say(
        "dread1", "dread1 ", "dread1  " + word, "dread1 " + word[:-1], "dread1 0", "dread1 0" + word,
        "dread1 " + word.upper(), "dread1 " + word.replace("c", "C"), f"dread1 {word} ", f"dread1 {word} -",
        f"dread1 {word} 00", "dread1 - -", "dread1 --", "dread1 -0", "dread1 0-", "dread1 00-", "dread1 0g",
        "dread1 g0", "dread1 /0", "dread1 0:", "dread1 0`", "dread1 +0", "dread1 0x", "dread1 " + word + "é",
        f"DREAD1 {word}", f"dread {word}", f"dread2{word}", f"dread0 {word}", f"dread11 {word}", f"!5 dread1", f"!5 !5 dread1 {word}",
        f"dry dread1 {word}", "dread1 " + "0" * 2585, "dread1 " + "0" * 2583 + "g", "dread1 " + "00" * 1300 + "G0",
    )
    say(f"dread1 {word}\r", "dread1 -\r")

    section("a delay file written before `new`")
    say("dwrite1", "!5 dwrite1", "dwrite1 -", "dwrite")


def back(entries, **settings):
    """A file read, given to `new`, written: it comes back."""
    say(read(file_of(entries)), new_line(loaded=loaded(entries), **settings), "dwrite1")


def writing():
    section("a delay file comes back from `new`")
    for entries in [[], TWO, ALL, [(0, 0)], [(2**128 - 1, U32)]]:
        back(entries)
    # Whatever the maximum and the kinds are; one flow from another place of the line
    back(TWO, maximum=0)
    back(ALL, n=16, kinds=[manual(1.0)] * 16)
    say(new_line(loaded=loaded(ALL[::-1])), "dwrite1")
    say(new_line(loaded=loaded(TWO + [(A, 9)])), "dwrite1")  # the last delay of a flow counts
    # Flows that differ in the first, the eighth, the ninth, the last byte, loaded in every order
    for at in (0, 7, 8, 15):
        one = 1 << 8 * (15 - at)
        own = [(one, 1), (2 * one, 2), (128 * one, 3), (255 * one, 4)]
        say(new_line(loaded=loaded(own[::-1])), "dwrite1", new_line(loaded=loaded(own[2:] + own[:2])), "dwrite1")
    mixed = [(1 << 120, 1), (1 << 64, 2), (1 << 56, 3), (1, 4), (1 << 120 | 1, 5)]
    say(new_line(loaded=loaded(mixed)), "dwrite1")

    section("a delay file written: 5, a refused `new`, what cannot be read")
    say("!5 dwrite1", "dwrite1", new_line(n=17), "dwrite1", "dwrite1 0", "dwrite1 ", " dwrite1", "dwrite2", "dwrite10")
    say("dry dwrite1", "DWRITE1", "dwrite1\r")

    section("a delay file of a session: known flows without a delay, remembered and cut ones")
    s = Supervisor(n=3, kinds=["A", "A", manual(3.0)], loaded=[("c", 700), ("a", 4801)])
    say("dwrite1")
    s.route(1, 0, "b/1", inode=None)  # known, and no delay is remembered
    s.route(2, 2, "d/1")  # a manual input leaves none
    say("dwrite1")
    s.route(3, 1, "a/1")  # the remembered delay is cut: 4800
    say("dwrite1")
    s.tick(4, [], [485])
    s.route(5, 0, "b/1", inode=5)
    s.route(5, 0, "b/2", inode=5)
    say("dwrite1")
    s.tick(6, [485], [485])  # input 0 remembers a delay of b
    say("dwrite1", "dump")  # the unsaved mark was told by the tick
    s.route(7, 0, "c/1")
    s.tick(8, [2000])  # another delay of c: unsaved, told
    say("dwrite1")
    s.route(9, 0, None)
    say("dwrite1", "dump")
    say(f"update 10 1 {manual(1.0)}", "dwrite1", "update 11 1 A", "dwrite1")

    section("a delay file does not touch the unsaved mark")
    s = Supervisor(n=1, loaded=[("a", 9000)])
    s.route(0, 0, "a/1")
    say("dwrite1", "dump")
    s.tick(1)
    say("dwrite1", "dump")

    section("a delay file of a record that is not whole: 6; 5 before it")
    s = Supervisor(n=2, loaded=loaded(TWO))
    say("put 1 delays 4801 -", "dwrite1", "!5 dwrite1", "put 1 delays 0 -", "dwrite1")
    say("put 0 window 5:1", "dwrite1", "put 0 window", "dwrite1")
    say(f"put 1 counters {TOP + 1} 0 0", "dwrite1", "put 1 counters 0 0 0", "dwrite1", "put 0 hold 1 5:5329 - - - 0 0 -")
    say("dwrite1", "put 0 hold 0 - - - 0 0 -", "dwrite1")

    section("a delay file of a full table, every flow known, some without a delay")
    s = Supervisor(n=1, loaded=loaded(ALL[:62]))
    s.route(1, 0, "ff/1", inode=None)
    s.route(2, 0, "fe/1", inode=None)
    s.route(3, 0, "fd/1")  # 9
    say("dwrite1")
    s.route(4, 0, "ff/1")
    s.tick(5, [600])
    say("dwrite1", "dread1 " + file_of(ALL[:62]).hex(), "dwrite1")

    section("a delay file read between the calls of a session touches nothing")
    s = Supervisor(n=2, loaded=loaded(TWO), confirm=1)
    s.route(1, 0, "a/1")
    s.tick(2, [700])
    say(read(file_of(ALL)), read(file_of(ALL[::-1])), "confirm 3 0", "dwrite1", "status 0 426 2", "wspan", "dump")
    s.tick(4, [700], [5])
