"""The calls on a whole supervisor."""
from replay.words import *


class Supervisor:
    """A supervisor's calls, and the world that its ticks report."""

    def __init__(self, n=1, now=0, kinds=None, loaded=(), **settings):
        self.n = n
        self.world = [dict(watch=5, open=5, make=1, channels=2, head=0, applied=0) for _ in range(n)]
        say(new_line(n=n, now=now, kinds=kinds, loaded=loaded, **settings))

    def tick_line(self, now, *lags, moving=True, counts=None, **changed):
        """`lags`: a list for each input. Each head goes on by 1 unless not `moving`.
        `changed`: other values for input 0 in this tick alone; `counts`: other counts."""
        looks = []
        lags = [list(own) for own in lags] + [[]] * (self.n - len(lags))
        for i, w in enumerate(self.world):
            w["head"] += 1 if moving else 0
            look = {**w, **(changed if i == 0 else {})}
            look["count"] = counts[i] if counts else len(lags[i])
            fields = ["watch", "open", "make", "channels", "head", "applied", "count"]
            looks.append(",".join(str(none(look[k])) for k in fields))
        return " ".join(["tick", str(now), *looks, "L", *(str(lag) for own in lags for lag in own)])

    def tick(self, *args, **named):
        say(self.tick_line(*args, **named))

    def route(self, now, i, to, inode=5, make=1, channels=2, head=None):
        head = self.world[i]["head"] if head is None and i < self.n else head or 0
        say(route_line(now, i, to, inode, make, channels, head))
        if i < self.n:
            self.world[i]["watch"] = self.world[i]["open"] = inode


def new_line(
    n=1, now=0, kinds=None, loaded=(), offset=480, maximum=4800, w=48, hold=30 * S, window=10 * S,
    stall=5 * S, margin=96, percent=50.0, confirm=0,
):
    words = ["new", now, n, offset, maximum, w, hold, window, stall, margin, bits(percent), confirm]
    words += kinds or ["A"] * n
    words += [len(loaded), *(f"{flow}={delay}" for flow, delay in loaded)]
    return " ".join(map(str, words))


def route_line(now, i, to, inode=5, make=1, channels=2, head=0):
    return f"route {now} {i} {none(to)} {none(inode)} {make} {none(channels)} {head}"


def manual(m):
    return "M" + bits(m)


def making():
    section("new: accepted")
    say("full 1")
    Supervisor(n=1, now=7)
    Supervisor(
        n=3, now=LATEST, kinds=["A", manual(5.0), manual(100.0)],
        loaded=[("a", 5), ("ff", 0), ("a", 7), ("0b", U32)], confirm=1,
    )
    # A manual delay above the maximum is cut.
    Supervisor(n=4, kinds=[manual(100.1), manual(1e300), manual(0.03125), manual(0.010416)], maximum=4800)
    # Reading 12: any double is a kind, and keeps its bits; -0.0 is a percent.
    Supervisor(
        n=6,
        kinds=[
            manual(-0.0), manual(-5.0), manual(INF), manual(-INF), "M7ff8000000000000", "Mfff0000000000001",
        ],
        percent=-0.0,
    )
    Supervisor(n=16, offset=0, maximum=0, w=4800, hold=0, window=S, stall=0, margin=0, percent=0.0)
    Supervisor(
        offset=96000, maximum=96000, w=49, hold=600 * S, window=600 * S, stall=600 * S, margin=96000,
        percent=1000.0,
    )
    # 4,096 buckets, 4,097
    say(new_line(w=4, offset=11579, maximum=0), new_line(w=4, offset=11580, maximum=0))
    # Reading 14: 9 counts distinct flows: 64 of them in 65 words are as many as fit; 65 are not.
    flows = [(format(k, "x"), k) for k in range(64)]
    say(new_line(loaded=flows + [("3f", 9)]), new_line(loaded=flows + [("40", 9)]))
    say("full 0")

    section("new: refusals")
    refused = [dict(n=0), dict(n=17)]
    refused += [dict(offset=96001), dict(maximum=96001), dict(w=0), dict(w=4801), dict(w=2)]
    refused += [
        dict(hold=600 * S + 1), dict(stall=600 * S + 1), dict(window=S - 1), dict(window=600 * S + 1),
        dict(window=0),
    ]
    refused += [
        dict(margin=96001), *(dict(percent=p) for p in [-1.0, -LEAST, step(1000.0, 1), NAN, -NAN, INF, -INF]),
    ]
    refused += [dict(now=LATEST + 1), dict(now=U64)]
    say(*(new_line(**r) for r in refused), short(new_line()))
    # Two reasons: the earlier one answers.
    say(
        new_line(n=17, w=0), new_line(n=0, w=2), new_line(offset=96001, hold=U64), new_line(stall=U64, margin=U32),
        short(new_line(percent=NAN)), short(new_line(now=U64)), new_line(now=U64, loaded=flows + [("40", 9)]),
        new_line(n=0, now=U64),
    )
    # Document 02, 1: 2, 17, 18 in this order, with one another, and before 3
    say(
        new_line(offset=96001, w=0), new_line(maximum=96001, w=2), new_line(offset=96001, maximum=96001, w=4801),
        new_line(w=0, hold=U64), new_line(w=U32, margin=U32), new_line(w=2, stall=U64), new_line(offset=96000, maximum=96000, w=1),
        short(new_line(w=0)), short(new_line(w=2)), new_line(w=2, now=U64), new_line(offset=U32, maximum=U32, w=4801),
    )
    say("dump")  # the supervisor of the last accepted `new` is still there
    say(
        "new 0 1 480 4800 48 1 1000000000 1 96 0 0 A", "new 0 1 480 4800 48 1 1000000000 1 96 0 0 A 1",
        "new 0 1 480 4800 48 1 1000000000 1 96 0 0 A 1 a", "new 0 1 480 4800 48 1 1000000000 1 96 0 0 B 0",
        "new 0 1 480 4800 48 1 1000000000 1 96 0 2 A 0", "new 0 1 480 4800 48 1 1000000000 1 96 0 0 A 0 5",
        "new 0 1 480 4800 48 1 1000000000 1 96 0 0 A 1 100000000000000000000000000000000=5",
        "new 0 2 480 4800 48 1 1000000000 1 96 0 0 A 0",
    )


def refusals():
    section("refusals of the calls on a supervisor")
    s = Supervisor(n=2, now=S, kinds=["A", manual(5.0)], loaded=[("a", 700)], confirm=1)
    s.route(S, 0, "a/1")
    s.route(S, 1, "b/2", inode=6)
    s.tick(2 * S, [500, 600], [700])
    s.tick(3 * S + 5, [500, 1400], [700])  # a proposal for input 0
    tick = lambda now=4 * S, *lags, **named: s.tick_line(now, *lags, moving=False, **named)
    lists = [
        route_line(4 * S, 0, "c/1"), f"update {4 * S} 0 A", f"update {4 * S} 0 {manual(5.0)}",
        f"confirm {4 * S} 0", tick(), "status 0 0 2", "has 0 2 2", f"settled {4 * S} 0",
    ]
    say(*map(short, lists))  # 5
    for n in (2, 2**32, U64):  # 7
        say(
            route_line(4 * S, n, "c/1"), f"update {4 * S} {n} A", f"confirm {4 * S} {n}", f"status {n} 0 2",
            f"settled {4 * S} {n}",
        )
    say("has 2 2 2", "has 18446744073709551615 2 2")  # Reading 14: 7 answers `has` of a missing input
    late = LATEST + 1  # 8
    say(
        route_line(late, 0, "c/1"), f"update {late} 0 A", f"confirm {late} 0", tick(late),
        f"settled {late} 0", tick(U64),
    )
    # 10: applied delays, channels, lag counts
    say(
        route_line(4 * S, 0, "c/1", channels=65), route_line(4 * S, 0, "c/1", channels=U32),
        "status 0 4801 2", "status 0 0 65", "status 0 4800 64", "has 0 65 2", "has 0 64 2",
    )
    say(
        tick(applied=4801), tick(channels=65), tick(4 * S, [5, 6], counts=[1, 0]),
        tick(4 * S, [5, 6], counts=[2, 1]), tick(4 * S, counts=[0, 1]),
    )
    # Reading 14: 10 adds the counts in a type wide enough: 2^32 lags are not 0, 2^32 + 1 are not 1.
    say(tick(4 * S, counts=[U32, 1]), tick(4 * S, [5], counts=[U32, 2]), tick(4 * S, counts=[2**31, 2**31]))
    # 12: manual delays outside 0 to 100 ms; both ends are within
    for m in [100.1, step(100.0, 1), -LEAST, -1.0, NAN, -NAN, INF, -INF, 1e300]:
        say(f"update {4 * S} 1 {manual(m)}")
    say(f"confirm {4 * S} 1")  # 13
    # Two reasons: the earlier one answers.
    say(
        short(route_line(4 * S, 2, "c/1")), short(tick(U64)), f"update {U64} 2 A",
        f"update {U64} 0 {manual(NAN)}", f"update {4 * S} 2 {manual(NAN)}", f"confirm {U64} 2",
        f"confirm {U64} 1", "status 2 4801 65", f"settled {U64} 2", route_line(U64, 2, "c/1", channels=65),
        route_line(U64, 0, "c/1", channels=65), tick(U64, applied=4801), "has 2 65 2",
    )
    say(
        "dump", f"update {4 * S} 1 {manual(100.0)}", f"update {4 * S} 1 {manual(-0.0)}",
        f"update {4 * S} 1 {manual(0.03125)}", f"confirm {4 * S} 0", f"confirm {4 * S} 0",
    )
    say(
        "put 2 delays 5 -", "put 0 counters 1 2", "put 0 delays 5", "put 0 snore", "put 0 window 5",
        "put 0 hold 0", "put 0 counters 1 2 3 4", "route 5 0 a 5 1 2 0", "route 5 0 a/1 5 2 2 0",
        "route 5 0 a/1 5 1 2", "update 5 0 B", "update 5 0 M", "update 5 0 a", "tick 5 5,5,1,2,0,0,0 L",
        "tick 5 5,5,1,2,0,0,0 5,5,1,2,0,0,0", "tick 5 5,5,1,2,0,0 5,5,1,2,0,0,0 L",
        "tick 5 5,5,1,2,0,0,0,0 5,5,1,2,0,0,0 L", "tick 5 5,5,1,2,0,0,0 5,5,1,2,0,0,0 M", "status 0 0",
        "has 0 0", "settled 0",
    )

    section("8: the latest time is a time")
    s = Supervisor(n=1, confirm=1)
    s.route(LATEST, 0, "a/1")
    s.tick(LATEST, [700], channels=64, applied=4800)
    say(f"confirm {LATEST} 0", f"update {LATEST} 0 A", f"settled {LATEST} 0", "dump")

    section("9: no room for another flow")
    s = Supervisor(n=1, loaded=[(format(k, "x"), k) for k in range(63)], maximum=40)
    s.route(1, 0, "3e/1")
    s.route(2, 0, "50/1", inode=None)  # the 64th: enrolled although it is not there
    s.route(3, 0, "51/1")
    s.route(3, 0, "51/1", channels=65)  # 9 before 10
    s.route(U64, 0, "51/1")  # 8 before 9
    s.route(4, 0, "50/2")
    s.route(5, 0, None)
    s.route(6, 0, "51/1")
    s.route(7, 0, "0/1")

    section("6: a record that is not whole, for every call; 5 before it, 7 and the rest after")
    s = Supervisor(n=2, now=S, confirm=1)
    s.route(S, 1, "b/2", inode=6)
    say(
        "put 0 delays 4801 -", route_line(U64, 9, "c/1", channels=65), f"update {U64} 9 {manual(NAN)}",
        f"confirm {U64} 9", s.tick_line(U64, applied=4801), "status 9 4801 65", "has 9 65 65",
        f"settled {U64} 9", short("status 0 0 2"),
    )
    say(
        "put 0 delays 4800 4801", "status 1 0 2", "put 0 delays 4800 4800", "status 0 0 2",
        "put 0 delays 0 -",
    )
    for counters in (
        f"{TOP + 1} 0 0", f"0 {TOP + 1} 0", f"0 0 {TOP + 1}", f"{U64} 0 0", f"{TOP} {TOP} {TOP}",
    ):
        say(f"put 1 counters {counters}", "has 0 2 2")
    say("put 1 counters 0 0 0", "has 0 2 2")
    for fields in [
        "1 5:5329 - - - 0 0 -", "2 5:0 1000000004:0 - - - 0 0 -", "2 5:0 10000000005:0 - - - 0 0 -",
        f"1 {LATEST + 1}:5 - - - 0 0 -", f"0 {LATEST + 1} - - 0 0 -", f"0 - {LATEST + 1}:5 - 0 0 -",
        "0 - 5:4801 - 0 0 -", f"0 - - {LATEST + 1} 0 0 -", f"0 - - - 0 0 {LATEST + 1}:5",
        "0 - - - 0 0 5:4801", "2 5:0 10000000004:5328 4000000000000000000 5:4800 5 255 1 5:4800",
    ]:
        say(f"put 1 hold {fields}", f"settled {S} 1")
    say("put 1 hold 0 - - - 0 0 -")
    for rows in [
        "5:1", "5:2,3=1", f"5:1,3=1 {S + 4}:1,3=1", f"5:1,3=1 {10 * S + 6}:1,3=1", f"{LATEST + 1}:0",
        f"5:{2**32},3={U32},4=1", " ".join(f"{k * S}:0" for k in range(12)), f"5:1,3=1 {10 * S + 5}:2,211=2",
    ]:
        say(f"put 1 window {rows}", "status 0 0 2")
    say("status 1 0 2", "put 1 window", "dump")

    section("11: a second's total")
    s = Supervisor(n=2, now=0)
    say(f"put 1 window 5:{U32 - 2},3={U32 - 2}")
    s.tick(6, [7], [1, 2, 3])
    s.tick(6, [7], [1, 2])
    s.tick(7, [7], [1])
    s.tick(7, [7], [])  # Reading 14: of an input without lags the answer is yes
    s.tick(S + 4, [7], [1])
    s.tick(S + 4, [7], [1], applied=4801)  # 10 before 11
    s.tick(S + 5, [7], [1])
    say("dump", f"put 0 window {S + 5}:{U32},3={U32}")
    s.tick(S + 6, [], [1])
    s.tick(2 * S + 5, [1], [1])


def routing():
    section("route: opening, waiting, none; Reading 8: what a route keeps")
    s = Supervisor(n=2, now=S)
    say("full 1")
    s.route(S, 0, None, inode=None)
    s.route(2 * S, 0, "a/1", inode=None)
    s.route(3 * S, 0, "b/1", make=0)
    s.route(4 * S, 0, "c/1", channels=None)
    s.tick(4 * S + 5, [600], [])
    s.route(5 * S, 0, "d/1", head=77, inode=8, channels=64)
    s.route(5 * S, 1, "d/1", head=78, inode=8, make=0)  # Reading 11: found where none can be made
    s.world[0]["head"] = 77
    s.tick(5 * S + 5, [700], [])
    s.tick(6 * S + 5, [800, 1000], [])
    s.tick(7 * S + 5, [800, 3000], [], watch=9, open=9)
    s.tick(8 * S, [20], [])
    s.route(8 * S, 0, "d/2", inode=None)  # the same flow in another domain: the delay stays (Reading 2)
    s.route(9 * S, 0, "d/3", inode=8, make=0)  # Reading 11: found whatever the domain
    s.route(10 * S, 0, "e/3", inode=8, head=3)  # another flow: delay 0
    s.route(11 * S, 0, "e/3", inode=None)  # equal: nothing at all, not even an opening (Reading 2)
    s.route(11 * S, 0, "d/3", inode=8)  # the delay that d had, as a seed
    s.tick(11 * S, [5], [5])
    s.route(12 * S, 0, None)  # flow to none: another flow
    s.tick(12 * S, [600], [5])
    s.route(13 * S, 0, None)  # Reading 2: none to none still clears window and hold
    say("dump", "full 0")

    section("Reading 2: an equal route on a waiting input does nothing; on a stalled one too")
    s = Supervisor(n=1, stall=S)
    s.route(0, 0, "a/1", inode=None)
    s.route(1, 0, "a/1", inode=5)
    s.world[0].update(watch=5, open=5)
    s.tick(2)
    s.tick(3)
    s.tick(4 * S, [7], moving=False, channels=None)
    s.route(4 * S, 0, "a/1", inode=5)
    s.route(4 * S, 0, "a/18446744073709551615", inode=5)

    section("Reading 3: with delay 0 a proposal survives a route to another flow")
    s = Supervisor(n=1, confirm=1)
    s.route(0, 0, "a/1")
    s.tick(5, [700])
    s.route(6, 0, "b/1")
    say("status 0 0 2", f"settled {6} 0", "confirm 7 0", "status 0 426 2")
    s.tick(8, [1500])
    s.route(9, 0, "c/1")  # the delay is not 0: the proposal goes
    say("confirm 9 0")
    s.tick(10, [700])
    s.tick(11, [900])
    say("confirm 12 0", "update 12 0 A")
    s.tick(13, [2000])
    say("update 13 0 A", "confirm 13 0")
    s.tick(14, [2000])
    say(f"update 14 0 {manual(3.0)}", "confirm 14 0", "dump")
    s.tick(15, [2000])

    section("Reading 4: a remembered 0; a remembered delay above the maximum")
    s = Supervisor(n=3, loaded=[("a", 0), ("b", 4801), ("c", U32), ("d", 4800)])
    s.route(1, 0, "a/1")
    s.route(2, 1, "b/1")
    say("dump")
    s.tick(3)
    s.route(4, 2, "d/1")  # as remembered: not unsaved
    s.tick(5)
    say("dump")
    s = Supervisor(n=1, loaded=[("a", 5)], maximum=0)
    s.route(1, 0, "a/1")
    # A manual input takes no remembered delay and leaves none; nor does an input with a delay.
    s = Supervisor(n=2, loaded=[("a", 700)], kinds=[manual(1.0), "A"])
    s.route(1, 0, "a/1")
    say(f"update 2 0 {manual(2.0)}", "update 3 0 A", "dump")
    s.route(4, 0, "a/2")
    say("put 1 delays 9 -")
    s.route(5, 1, None)
    s.route(6, 1, "a/1", inode=None)
    say("put 1 delays 9 -")
    s.world[1].update(watch=5, open=5)
    s.tick(7)
    say("dump")
    # Nor does an input that was not waiting: running, another inode, then stalled.
    s = Supervisor(n=2, stall=S)
    s.route(1, 0, "a/1")
    s.route(2, 1, "a/1")
    s.tick(3, [], [900])
    s.tick(4, watch=6, open=6)
    s.tick(2 * S, watch=6, open=6, moving=False, head=1)
    s.tick(3 * S, watch=6, open=6, head=1, moving=False)
    say("dump")

    section("Reading 11: two inputs on one flow; instances")
    s = Supervisor(n=3, loaded=[("b", 300)])
    s.route(1, 0, "a/1", channels=3)
    s.route(2, 1, "a/2", inode=None)
    s.world[1].update(watch=5, open=5)
    s.tick(3, [2000])  # input 1 sees in this tick what input 0 just remembered
    say("dump")
    s.route(4, 2, "c/1", inode=7, channels=None)  # made, but its reader does not open
    s.route(5, 1, "b/1", inode=8, make=0)  # not made: no pruning
    s.route(6, 0, None)  # nor here
    s.route(7, 0, "b/1", inode=None)
    s.route(7, 0, "d/1", inode=3, channels=None)  # made, not opened: pruned, and itself kept
    s.tick(8)
    s.world[1].update(watch=9, open=9)
    s.tick(9)
    s.route(10, 2, "b/1", inode=9, make=0)
    s.route(11, 2, "b/1", inode=9, make=0)


def ticking():
    section("tick: watch, stalls, flows that vanish")
    s = Supervisor(n=2, now=0, stall=2 * S)
    s.route(0, 0, "a/1", head=5)
    s.world[0]["head"] = 5
    s.tick(1)
    # Reading 6: a new head stores its time; at least stall, not more
    s.tick(S, [500], moving=False)
    s.tick(2 * S, [500], moving=False)
    s.tick(2 * S + 1, [500], moving=False, head=6)  # the same head, 2 s old: stalled, opened again
    s.tick(3 * S, [6000, 500], moving=False)
    s.tick(4 * S, [500])  # a new head: running
    s.tick(5 * S, [500])
    s.tick(7 * S - 1, [700], moving=False)
    s.tick(7 * S, [700], moving=False, make=0, open=6)  # stalls; not made
    s.tick(8 * S, [700], moving=False)  # a stalled input does not decide; no late event
    s.world[0].update(watch=6, open=6, head=99)
    s.tick(9 * S, [700], moving=False)  # another inode: opened again, its head stored, still stalled
    s.tick(9 * S + 1, [700], moving=False)
    s.tick(10 * S, [700])
    s.tick(11 * S, [700])
    # Reading 5: no inode
    s.tick(12 * S, [700], watch=None)
    s.tick(13 * S, [700], open=None)
    s.tick(14 * S, [700], open=7, make=0)
    s.tick(15 * S, [700], open=7, channels=None)
    say("full 1")
    s.tick(16 * S, [700], open=7)
    s.world[0].update(watch=7, open=7)
    say("full 0")
    # Reading 5: the open fails, it runs on, and decides
    s.tick(
        17 * S, [5000], watch=8, open=9, channels=None,
    )
    s.tick(18 * S, [700], watch=8, open=9, make=0)
    s.tick(19 * S, [700], watch=8, open=None)
    s.tick(20 * S, [700], watch=8, open=9)  # opened under the inode that `try_open` sees
    s.tick(21 * S, [700], watch=9, open=9)
    say("status 0 100 2", "dump")

    section("tick: a stall turns the timer off; Reading 6: stall 0")
    s = Supervisor(n=1, stall=0, hold=3 * S)
    s.route(0, 0, "a/1")
    say("put 0 delays 3000 -")
    for k in range(3):
        s.tick(k * S, [480])  # the timer starts at 1 s
    s.tick(3 * S, [480], moving=False)
    s.tick(4 * S, [480])  # and again here
    s.tick(7 * S - 1, [480])
    s.tick(7 * S, [480])
    s.tick(8 * S, moving=False, open=6, watch=6)
    s.tick(8 * S, moving=False)

    section("Reading 7: late events")
    s = Supervisor(n=1, confirm=1)
    s.route(0, 0, "a/1", inode=None)
    s.world[0].update(watch=5, open=5)
    s.tick(1, [700])  # waiting before `watch`: no late event
    s.tick(2, [700], applied=220)
    s.tick(3, [701], applied=220)
    s.tick(4, [702], applied=220)
    s.tick(5, [], applied=220)
    s.tick(6, [5280, 700], applied=4799)
    s.tick(7, [5281, 5280], applied=0)  # one beyond the limit hides the rest
    s.tick(8, [5280, 5281], applied=0)
    s.tick(9, [600], applied=0)
    s.route(10, 0, "b/1")
    say("update 11 0 A")
    s.tick(12, [600], applied=0)  # late before, over route and update
    s.tick(13, [600], applied=0, watch=None)  # late by the state before `watch`
    s.tick(14, [600], applied=0)
    s.tick(15, [600], applied=0)
    s.tick(16, [481, 0], applied=0)
    s.tick(17, [480], applied=0)
    s.tick(18, [481], applied=0)
    say("dump")
    # By the applied delay, not by the stored one; the stored one decides in `next`.
    s = Supervisor(n=1)
    s.route(0, 0, "a/1")
    say("put 0 delays 1000 -")
    s.tick(1, [900], applied=0)
    s.tick(2, [2000], applied=4800)
    say(f"update 3 0 {manual(0.0)}")
    s.tick(4, [2000], applied=0)  # a manual input has late events too

    section("auto_delay: the percentile's span, its limit, what is current")
    for span in (S - 1, S):
        s = Supervisor(n=1)
        s.route(0, 0, "a/1")
        say(f"put 0 window 0:1,10=1")
        s.tick(span, [480])
        s.tick(span + 1, [480])
    # Lags beyond offset + maximum count for nothing: 5280 is bucket 110's start.
    s = Supervisor(n=1)
    s.route(0, 0, "a/1")
    say(f"put 0 window 0:5,10=1,111=4 {S}:5,111=5", "status 0 0 2")
    s.tick(S + 1, [480])
    say(f"put 0 window 0:5,10=1,110=4 {S}:5,111=5")
    s.tick(S + 2)
    say(f"put 0 window 0:5,111=5 {S}:5,111=5")
    s.tick(S + 3)
    say("status 0 0 2")
    # Current is the proposal where there is one. Reading 16: with confirmation off too.
    for confirm in (0, 1):
        s = Supervisor(n=1, confirm=confirm)
        s.route(0, 0, "a/1")
        say(f"put 0 delays 100 2000", f"put 0 window 0:5,10=5 {S}:5,10=5")
        s.tick(S, [600])
        s.tick(6 * S, [481])
        say(f"confirm {6 * S} 0", "dump")
        s.tick(7 * S, [2600])
    # A manual or stalled or waiting input does not decide.
    s = Supervisor(n=2, kinds=[manual(1.0), "A"])
    s.route(0, 0, "a/1")
    s.route(0, 1, "b/1", inode=None)
    for k in range(3):
        s.tick(k * S, [900], [900])
    say("status 0 48 2", "status 1 0 2")

    section("Reading 10: nothing is dropped without lags; `status` drops nothing")
    s = Supervisor(n=1)
    s.route(0, 0, "a/1")
    s.tick(1, [485])
    s.tick(S + 1, [490])
    s.tick(50 * S)
    say("status 0 0 2", "dump")
    s.tick(50 * S, [480])
    say("dump")

    section("Reading 16: a counter at its top may be raised; the next call says 6")
    s = Supervisor(n=1, confirm=1)
    s.route(0, 0, "a/1")
    say(
        f"put 0 counters {TOP} {TOP} {TOP}", "status 0 0 2", "put 0 delays 0 500", "confirm 1 0",
        "status 0 0 2", f"put 0 counters {TOP} 0 0",
    )
    s.tick(2, watch=None)
    s.tick(3)
    say(f"put 0 counters 0 0 {TOP}")
    s.tick(4)
    s.tick(5, [2000])
    s.tick(6)

    section("Reading 17: the unsaved mark")
    s = Supervisor(n=1, loaded=[("a", 9000)], confirm=1)
    s.route(0, 0, "a/1")  # set by route
    say("update 0 0 A", "status 0 0 2")
    s.tick(1)  # told and cleared
    s.tick(2)
    say("put 0 delays 5 7", "confirm 3 0")  # set by confirm_delay
    s.tick(4)
    say("put 0 delays 7 7", "confirm 5 0")  # the same delay: not unsaved
    s.tick(6)
    s = Supervisor(n=1)
    s.route(0, 0, "a/1")
    s.tick(1, [485])  # set, told and cleared by tick
    s.tick(2)
    say("dump")

    section("Reading 15: 6 bounds neither the last lag nor a manual double")
    s = Supervisor(n=2, kinds=["A", "Mfff8000000000000"])
    s.route(0, 0, "a/18446744073709551615", inode=0)
    s.route(0, 1, "ffffffffffffffffffffffffffffffff/0", inode=U64, channels=0)
    s.tick(1, [U32], [U32, 6], head=U64)
    say("status 0 0 2", "status 1 0 2", "has 0 0 0", "has 1 5 6", f"has 1 5 {U32}", "dump")


def looking():
    section("status, has, settled")
    s = Supervisor(n=3, kinds=["A", manual(12.5), "A"], now=S)
    say("status 0 0 2", "status 1 600 2", "has 0 2 2", f"settled {S} 0", f"settled {31 * S} 1")
    s.route(S, 0, "a/1")
    s.route(S, 1, "b/1")
    s.route(S, 2, "c/1", inode=None)
    for k in range(1, 5):
        s.tick(k * S + 7, [480 + 5 * k, 20 * k], [5000 + 100 * k], [77])
    for i in range(3):
        say(
            f"status {i} 0 2", f"status {i} 4800 64", f"has {i} 2 2", f"has {i} 2 3", f"has {i} 2 1",
            f"has {i} 0 0",
        )
    # A SetDelay went to input 0; age at least hold, 30 s. The clock may go back.
    say(
        f"settled {2 * S} 0", f"settled {31 * S + 6} 0", f"settled {31 * S + 7} 0", f"settled {31 * S + 8} 0",
        f"settled {32 * S + 7} 0", f"settled {34 * S + 6} 0", f"settled {34 * S + 7} 0", f"settled 0 0",
        f"settled {LATEST} 0",
    )
    say(f"settled {31 * S} 1", f"settled {31 * S - 1} 1", f"settled {LATEST} 2")
    s.tick(5 * S, watch=None)
    say(f"settled {LATEST} 0", "has 0 2 2", "status 0 0 2")
    s.route(6 * S, 0, None)
    say("status 0 0 2", "dump")
    # Quantiles: 1,000 lags, the 500th, the 990th and the 999th.
    say(
        f"put 2 window 0:500,3=500 {S}:500,4=490,5=9,6=1", "status 2 0 2",
        f"put 2 window 0:500,3=499,4=1 {S}:500,4=485,5=13,6=2", "status 2 0 2",
    )
    say(
        "put 2 hold 3 0:50 1000000000:900 2000000000:60 - - - 0 0 -", "status 2 0 2",
        "put 1 hold 1 0:50 - - - 0 0 -", "status 1 0 2",
    )

    section("settled after every call that sends SetDelay")
    s = Supervisor(n=1, hold=5 * S, confirm=1, loaded=[("a", 500)])
    s.route(0, 0, "a/1")
    say(
        f"settled {5 * S - 1} 0", f"settled {5 * S} 0", f"update {6 * S} 0 {manual(0.0)}",
        f"settled {11 * S - 1} 0", f"settled {11 * S} 0", f"update {12 * S} 0 A", f"settled {12 * S} 0",
        "put 0 delays 5 9", f"confirm {13 * S} 0", f"settled {18 * S - 1} 0", f"settled {18 * S} 0",
    )
    s.route(19 * S, 0, "b/1")
    say(f"settled {24 * S - 1} 0", f"settled {24 * S} 0")
    s = Supervisor(n=1, hold=0)
    s.route(0, 0, "a/1")
    s.tick(0, [900])
    say("settled 0 0")


def session():
    section("update: back to automatic clears window and hold; the delay stays")
    s = Supervisor(n=1)
    s.route(0, 0, "a/1")
    for k in range(1, 5):
        s.tick(k * S, [500 + k])
    say("full 1", f"update {5 * S} 0 {manual(7.0)}")
    s.tick(6 * S, [600])
    say(f"update {7 * S} 0 A", f"update {7 * S} 0 A", "full 0")
    for k in range(8, 20):
        s.tick(k * S, [480])

    section("a session: spike, seed, start-up, steady")
    s = Supervisor(n=2, loaded=[("a", 2000)], hold=8 * S, window=6 * S)
    s.route(0, 0, "a/1")
    s.route(0, 1, "b/1", inode=6)
    now = 0
    for k in range(70):
        now += S // 2 if k < 40 else S
        lag = 3000 if k in (33, 50) else 2300 if k in (34, 40, 41) else 470 + k % 5
        s.tick(now, [lag, 300], [482 + k] if k % 3 else [])
        s.world[0]["applied"] = 2000 if k < 8 else 300
    say("status 0 300 2", "status 1 300 2", f"settled {now} 0", "dump")
    # The clock goes back, and far ahead.
    s.tick(now - 3 * S, [700], [800])
    s.tick(0, [700], [800])
    s.tick(LATEST, [700], [800])
    s.tick(5, [900], [800])
    say("dump")

    section("sixteen inputs")
    s = Supervisor(n=16, now=5, w=4800, kinds=["A"] * 15 + [manual(3.0)])
    for i in range(16):
        s.route(6 + i, i, f"{i % 14:x}/1", inode=i % 3, channels=i, head=i)
    s.tick(30, *([481 + 100 * i] for i in range(16)))
    s.tick(2 * S, *([481 + 100 * i] for i in range(16)), watch=None)
    say(
        short(s.tick_line(3 * S)), "dump", "status 15 144 2", "status 16 144 2",
        "dry " + s.tick_line(3 * S, [5]),
    )


def beside():
    section("sixteen kinds, each its own")
    say(new_line(n=16, kinds=[manual(i + 0.5) if i % 3 else "A" for i in range(16)]), "dump")

    section("the window and the hold alone beside a supervisor with all its places in use")
    asked = f"480 11096 4 {30 * S} {10 * S} 96 {bits(50.0)} -"
    say("wnew 480 11096 4", "wpush 0 5", "wpush 16375 5", f"wpush {U32} 5", "hnew", f"next {asked} 600 0 1000")
    s = Supervisor(n=16, maximum=11096, w=4)
    say("wspan", f"wquant {bits(1.0)} {U32}", "wpush 1 6", f"next {asked} 500 180 2000")
    for i in range(16):
        s.route(6 + i, i, f"{i:x}/1")
    for k in range(1, 13):
        s.tick(k * S, *([481 + i, 16375, U32] for i in range(16)))
    say("wpush 2 7", f"next {asked} 700 180 3000", "wclear", "hnew", "status 15 0 2", "dump")
    say("wpush 3 8", f"next {asked} 800 0 4000", "wspan")

    section("more answers than the output buffer holds")
    say(*["dump"] * 30)


def calls():
    making()
    refusals()
    routing()
    ticking()
    looking()
    session()
    beside()
