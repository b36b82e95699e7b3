"""The sums over a window's seconds of document 02, request 5. No answer shows one: a call on a window whose sums
are not right is refused by 6, so each call shows that the calls before it left them right. Which value is right is
shown by crafting it: the call before it would tell of a wrong one."""
from replay.supervisor import Supervisor, manual, new_line, route_line
from replay.words import *

QUANTILE = f"wquant {bits(0.5)} {U32}"
HAS = "has 0 2 2"


def lone(*sums):
    """Crafted sums of the window alone: bucket, value."""
    return [f"wsum {bucket} {value}" for bucket, value in sums]


def put(i, *sums):
    """Crafted sums of an input."""
    return [f"put {i} sum {bucket} {value}" for bucket, value in sums]


def stand(*sums):
    """The sums of the window alone stand so: a call before they are crafted, and one after it."""
    say("wspan", *lone(*sums), "wspan")


def stand_in(i, *sums):
    """The sums of an input stand so."""
    say(HAS, *put(i, *sums), HAS)


def wrong(right, beside):
    """What a sum is not: next to it, the next bucket's, its low 32 bits, more than 32 bits."""
    values = [right + 1, right - 1, 0, beside, right + 2**32, right % 2**32, U32, 2**32, U64 - 1, U64]
    return [v for v in dict.fromkeys(values) if v >= 0 and v != right]


# ---- the window alone


def alone():
    section("put .. sum before `new`")
    say(*put(0, (0, 0)))

    section("a window's sums, right ones: nothing changes")
    say("wnew 480 4800 48")
    stand((0, 0), (211, 0))
    say("wpush 100 5")
    stand((2, 1))
    say("wpush 100 6")
    stand((2, 2))
    say(QUANTILE, f"wpush {U32} 7")
    stand((211, 1), (2, 2), (1, 0))
    say(f"wpush 0 {S + 5}")
    stand((0, 1), (211, 1))
    say(QUANTILE, "wclear")
    stand((0, 0), (2, 0), (211, 0))

    section("a window's sums, one wrong: 6 from every call, and right again")
    say("wpush 100 5", "wpush 100 6", "wpush 150 7", "wpush 150 8", "wpush 150 9")
    for value in wrong(2, 3):
        say(*lone((2, value)), "wpush 1 5", "wclear", "wspan", QUANTILE, *lone((2, 2)), "wspan")
    # A bucket without lags, the first, the last
    for bucket in (0, 4, 210, 211):
        say(*lone((bucket, 1)), "wspan", *lone((bucket, 0)), "wspan")
    # Each is asked: two wrong ones whose sum is right, one of them right again
    say(*lone((2, 3), (3, 2)), "wspan", *lone((2, 2)), "wspan", *lone((3, 3)), "wspan")
    # 5 before 6, 6 before 8 and 14
    say(*lone((0, 7)), short("wspan"), short("wclear"), f"wpush 1 {LATEST + 1}", f"wquant {bits(NAN)} 5")
    say(short(f"wpush 1 {U64}"), *lone((0, 0)), f"wpush 1 {LATEST + 1}", f"wquant {bits(NAN)} 5", "wspan")

    section("a window's sums, right again by wset, by wnew, not by a refused wnew or wclear")
    say(*lone((2, 9)), "wspan", "wset 5:1,3=1")
    stand((3, 1), (2, 0))
    say(*lone((2, 9)), "wset")
    stand((3, 0), (2, 0))
    say("wpush 1 1", *lone((2, 9)))
    say("wnew 480 4800 0", "wspan", "wnew 480 4800 2", "wspan", short("wnew 480 4800 48"), "wspan", "wclear", "wspan")
    say("wnew 480 4800 48", "wspan", "wpush 1 1", "wspan")
    # A window of fewer buckets does not have the wrong one; one of as many again begins with zeros.
    say(*lone((200, 9)), "wnew 0 0 4800", "wspan", "wpush 1 1")
    stand((0, 1), (2, 0))
    say("wnew 480 4800 48")
    stand((200, 0))

    section("a window's sums after seconds went")
    for lag, now in [(100, 0), (100, 5), (200, S), (200, S + 7), (250, S + 8), (100, 2 * S)]:
        say(f"wpush {lag} {now}")
    stand((2, 3), (4, 2), (5, 1))
    say(f"wpush 300 {10 * S}")  # the first second is 10 s old: it stays
    stand((2, 3), (4, 2), (6, 1))
    say(f"wpush 300 {11 * S}")  # it goes
    stand((2, 1), (4, 2), (5, 1), (6, 2))
    say(*lone((2, 3)), "wspan", *lone((2, 1)))
    say(f"wpush 300 {12 * S + 1}")  # two go
    stand((2, 0), (4, 0), (5, 0), (6, 3))
    say(QUANTILE, f"wpush 1 {40 * S}")  # all but the new one go
    stand((0, 1), (6, 0))
    say(*lone((6, 3)), "wspan", *lone((6, 0)), f"wpush 1 {51 * S}", "wspan", f"wpush 1 {51 * S}")
    stand((0, 2))
    say(f"wpush 1 {50 * S}", f"wpush 60 0")  # the clock goes back: the newest second goes on
    stand((0, 3), (1, 1))
    say("wclear")
    stand((0, 0), (1, 0))
    # Eleven seconds, and one more: the oldest goes, with each bucket that it has.
    eleven = " ".join(f"{k * S}:{k + 3},{k}={k + 1},200=1,211=1" for k in range(11))
    say(f"wset {eleven}")
    stand(*((k, k + 1) for k in range(11)), (200, 11), (211, 11))
    say(f"wpush 500 {11 * S}")
    stand((0, 0), (1, 2), (10, 12), (200, 10), (211, 10))
    say(QUANTILE, f"wpush 500 {13 * S}")
    stand((0, 0), (1, 0), (2, 0), (3, 4), (10, 13), (200, 8))
    say(QUANTILE)

    section("a window's sums: crafted rows leave right ones, sums above 32 bits")
    say("wset 5:2,3=1,3=2")  # the last of a bucket counts
    stand((3, 2))
    say(*lone((3, 3)), "wspan", *lone((3, 2)))
    large = " ".join(f"{k * S}:{U32},5={U32}" for k in range(11))
    say(f"wset {large}")
    stand((5, 11 * U32))
    say(QUANTILE)
    for value in wrong(11 * U32, 0):
        say(*lone((5, value)), "wspan")
    say(*lone((5, 11 * U32)), f"wpush 250 {11 * S}")
    stand((5, 10 * U32 + 1))
    say(QUANTILE, f"wpush 250 {15 * S}")
    stand((5, 6 * U32 + 2))
    # Rows that are not whole are refused whatever their sums are.
    say("wset 5:2,3=1", "wspan", *lone((3, 1)), "wspan", *lone((3, 2)), "wspan", "wset 5:1,3=1", "wspan")
    twelve = " ".join(f"{k * S}:1,3=1" for k in range(12))
    say(f"wset {twelve}", *lone((3, 11)), "wspan", *lone((3, 12)), "wspan", "wset", "wspan")

    section("a window's sums: the last of 4,096 buckets, of 3")
    say("wnew 11579 0 4", "wspan", *lone((4095, 1)), "wspan", *lone((4095, 0)), "wspan", f"wpush {U32} 5")
    stand((4095, 1))
    say(*lone((4096, 0)), "wnew 0 0 4800", *lone((2, 0), (3, 0)), "wspan")
    say(*lone((2, 1)), QUANTILE, *lone((2, 0)), QUANTILE)

    section("a sum that cannot be read, or of a bucket that does not exist")
    say("wnew 480 4800 48", *lone((212, 0), (4096, 0), (U32, 0), (211, 0)), "wspan")
    say(
        "wsum", "wsum ", "wsum 0", "wsum 0 ", "wsum  0 0", "wsum 0  0", " wsum 0 0", "wsum 0 0 ", "wsum 0 0 0",
        "wsum 4294967296 0", "wsum 0 18446744073709551616", "wsum - 0", "wsum 0 -", "wsum 0 x", "wsum 0:0",
        "wsum 0,0", "wsum 0=0", "wsum 0 -1", "wsum +0 0", "wsum 0x0 0", "WSUM 0 0", "wsums 0 0", "wsu 0 0", "dry wsum 0 0",
    )
    say("wspan", "wsum 00 000", "wspan", "!5 wsum 0 5", "wspan", "!5 wsum 0 0", "wspan", f"wsum 0 {U64}\r", "wspan")
    say("wset", "wspan")


# ---- an input of a supervisor


def every_call(s, now):
    """Each call on a supervisor, accepted where nothing is wrong."""
    return [
        s.tick_line(now, [], []), "status 0 0 2", "status 1 0 2", HAS, f"settled {now} 1", "dwrite1", f"confirm {now} 1",
        f"update {now} 1 {manual(1.0)}", f"update {now} 0 A", route_line(now, 1, "b/1"),
    ]


def supervised():
    section("an input's sums, right ones: nothing changes")
    s = Supervisor(n=2)
    stand_in(0, (0, 0), (211, 0))
    stand_in(1, (0, 0), (211, 0))
    s.route(0, 0, "a/1")
    s.route(0, 1, "b/1")
    s.tick(S, [500, 600], [700])
    stand_in(0, (10, 1), (12, 1))
    stand_in(1, (14, 1))
    s.tick(2 * S, [500], [700, 700, U32])
    stand_in(0, (10, 2), (12, 1), (14, 0))
    stand_in(1, (14, 3), (211, 1), (10, 0))
    say("status 0 0 2", "status 1 0 2", "dump")

    section("an input's sums after seconds went")
    s.tick(12 * S, [900])  # input 0 loses its first second; input 1 has no lag, so it loses none
    stand_in(0, (10, 1), (12, 0), (18, 1))
    stand_in(1, (14, 3), (211, 1))
    say(*put(0, (10, 2)), HAS, *put(0, (10, 1)), HAS, *put(1, (14, 2)), HAS, *put(1, (14, 3)))
    s.tick(13 * S + 1, [], [1000])  # both seconds of input 1 go
    stand_in(0, (10, 1), (18, 1))
    stand_in(1, (14, 0), (211, 0), (20, 1))
    s.tick(60 * S, [500], [500])
    stand_in(0, (10, 1), (18, 0))
    stand_in(1, (10, 1), (20, 0))
    say("status 0 0 2", "dump")

    section("an input's sums after route, update, confirm: cleared or kept")
    say(f"update {61 * S} 1 {manual(2.0)}")  # a manual delay keeps the window
    stand_in(1, (10, 1))
    say(f"update {61 * S} 1 A")
    stand_in(1, (10, 0))
    stand_in(0, (10, 1))
    s.route(62 * S, 0, "a/2")
    stand_in(0, (10, 0))
    s.tick(62 * S, [500, 700], [600])
    s.route(63 * S, 0, None)
    stand_in(0, (10, 0), (14, 0))
    stand_in(1, (12, 1))
    say("status 0 0 2", "status 1 0 2", "dump")
    s = Supervisor(n=1, confirm=1)
    s.route(0, 0, "a/1")
    s.tick(5, [700])
    stand_in(0, (14, 1))
    say("confirm 6 0")
    stand_in(0, (14, 1))

    section("an input's sums, one wrong: 6 from every call on the supervisor, and right again")
    s = Supervisor(n=2, confirm=1, loaded=[("a", 700)])
    s.route(0, 0, "a/1")
    s.route(0, 1, "b/1")
    s.tick(S, [500, 500, 600], [700])
    s.tick(2 * S, [900], [800])
    for value in wrong(2, 0):
        say(*put(0, (10, value)), "status 1 0 2")
    say(*every_call(s, 3 * S), *put(0, (10, 2)), HAS)
    say(*put(1, (14, 0)), *every_call(s, 3 * S), *put(1, (14, 1)), HAS)
    # 5 before 6, 6 before the rest
    say(*put(1, (0, 1)), *map(short, every_call(s, 3 * S)))
    say(
        route_line(U64, 9, "c/1", channels=65), f"update {U64} 9 {manual(NAN)}", f"confirm {U64} 9",
        s.tick_line(U64, applied=4801), "status 9 4801 65", "has 9 65 65", f"settled {U64} 9",
    )
    say(*put(1, (0, 0)), *every_call(s, 3 * S), "dump")
    # The last bucket of one input and the first of the next are each their own.
    for i, bucket in ((0, 211), (1, 0), (1, 211)):
        say(*put(i, (bucket, 1)), HAS, *put(i, (bucket, 0)), HAS)
    # Each is asked, of each input.
    say(*put(0, (5, 1)), *put(1, (5, 1)), HAS, *put(0, (5, 0)), HAS, *put(1, (5, 0)), HAS)

    section("an input's sums, right again by put .. window and by new, not by another part or a refused new")
    say(*put(1, (5, 1)), "put 0 window", HAS, "put 1 hold 0 - - - 0 0 -", "put 1 counters 0 0 0", "put 1 delays 0 -", HAS)
    say("put 1 window")
    stand_in(1, (5, 0), (14, 0), (16, 0))
    say(f"put 1 window 5:2,3=1,3=2 {S + 5}:{U32},3={U32 - 1},211=1")
    stand_in(1, (3, U32 + 1), (211, 1))
    say(*put(1, (3, 0)), HAS, *put(1, (3, U32 + 1)), "status 1 0 2", "dump")
    say(*put(0, (0, 1)), new_line(n=17), HAS, short(new_line(n=2)), HAS, new_line(n=2), HAS)
    say(*put(1, (211, 9)), new_line(n=1), HAS, new_line(n=2), HAS)

    section("an input's sums: 16 inputs of 4,096 buckets, of 3")
    s = Supervisor(n=16, w=4, offset=11579, maximum=0)
    for i in (0, 7, 15):
        for bucket in (0, 2047, 4095):
            say(*put(i, (bucket, 1)), HAS, *put(i, (bucket, 0)), HAS)
    say(*put(15, (4095, 1)))
    s = Supervisor(n=16, w=4800, offset=0, maximum=0)
    say(HAS, *put(15, (2, 1)), HAS, *put(15, (2, 0), (3, 0)), HAS)
    s = Supervisor(n=16, w=4, offset=11579, maximum=0)
    s.tick(S, *([11 * i, U32] for i in range(16)))
    stand_in(15, (41, 1), (4095, 1))
    stand_in(0, (0, 1), (4095, 1))

    section("put .. sum that cannot be read, of a bucket or an input that does not exist")
    Supervisor(n=2)
    say(*put(0, (212, 0), (4096, 0), (U32, 0)), *put(2, (0, 0)), *put(16, (0, 0)), *put(U64, (0, 0)), HAS)
    say(
        "put 0 sum", "put 0 sum ", "put 0 sum 0", "put 0 sum 0 ", "put 0 sum 0 0 0", "put 0 sum  0 0", "put 0 sum 0  0",
        "put 0 sum 4294967296 0", "put 0 sum 0 18446744073709551616", "put 0 sum - 0", "put 0 sum 0 -", "put 0 sum 0:0",
        "put 0 sum 0=0", "put 0 sums 0 0", "put 0 su 0 0", "put 0 SUM 0 0", "put 0  sum 0 0", "put sum 0 0", "put - sum 0 0",
        "put 0 sum 0 x",
    )
    say(HAS, "!5 put 0 sum 0 1", HAS, "!5 put 0 sum 0 0", HAS, f"put 1 sum 0 {U64}\r", HAS, "put 1 window", HAS)
