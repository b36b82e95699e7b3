"""Settled by document 02, request 4: neither a SetDelay nor a SetInput within the last hold."""
from replay.supervisor import Supervisor, manual
from replay.words import *

HOLD = 5 * S


def about(sent, i=0):
    """Settled of input i around a command that was sent then: at once, a nanosecond before it is hold old, when it is."""
    say(f"settled {sent} {i}", f"settled {sent + HOLD - 1} {i}", f"settled {sent + HOLD} {i}")


def calls():
    section("settled: an opening, one by another inode, one that fails")
    s = Supervisor(hold=HOLD, stall=60 * S)
    say(f"settled {LATEST} 0")  # Unrouted, and no command ever went
    s.route(S, 0, "a/1")  # SetInput alone: nothing is remembered
    about(S)
    say(f"settled {S - 1} 0", "settled 0 0")  # a clock that went back: age 0
    say(f"settled {LATEST} 0")
    s.tick(7 * S)
    about(S)
    s.tick(8 * S, watch=6, open=6)  # created anew
    s.world[0].update(watch=6, open=6)
    about(8 * S)
    s.tick(14 * S, watch=7, open=7, channels=None)  # another inode whose reader does not open: no SetInput
    s.tick(15 * S, watch=7, open=7, make=0)
    s.tick(16 * S, watch=7, open=None)
    about(8 * S)
    say(f"settled {16 * S} 0")
    s.tick(17 * S, watch=7, open=7, channels=0)
    about(17 * S)

    section("settled: a stall, and its reopening")
    s = Supervisor(hold=HOLD, stall=2 * S)
    s.route(0, 0, "a/1")
    s.tick(S)
    s.tick(3 * S - 1, moving=False)
    about(0)
    s.tick(3 * S, moving=False)  # Stalled, and SetInput
    about(3 * S)  # not Running: never
    say(f"settled {LATEST} 0")
    s.tick(4 * S, moving=False)  # Stalled still: watch sends nothing more
    s.tick(5 * S)  # the head moves: Running
    about(3 * S)
    s.tick(20 * S)
    s.tick(22 * S, moving=False, channels=None)  # Stalled, and the reader does not open
    s.tick(23 * S)
    say(f"settled {23 * S} 0")
    s.tick(25 * S, moving=False)  # Stalled, and SetInput
    s.tick(26 * S, watch=6, open=6)  # another inode while Stalled: SetInput, still Stalled
    s.world[0].update(watch=6, open=6)
    say(f"settled {LATEST} 0")
    s.tick(27 * S)
    about(25 * S)
    about(26 * S)

    section("settled: ClearInput without SetInput, and the next opening")
    s = Supervisor(hold=HOLD)
    s.route(0, 0, "a/1")
    s.tick(10 * S, watch=None)  # ClearInput
    about(10 * S)
    s.tick(11 * S, open=None)  # Waiting: nothing to open
    s.tick(12 * S)
    about(12 * S)
    s.route(20 * S, 0, "a/2", inode=None)  # ClearInput with forget; the delay stays
    about(20 * S)
    s.world[0].update(watch=5, open=5)
    s.tick(21 * S)
    about(21 * S)

    section("settled: only one of the two is young")
    s = Supervisor(kinds=[manual(5.0)], hold=HOLD)  # SetDelay at 0
    s.route(3 * S, 0, "a/1")  # SetInput
    about(0)
    about(3 * S)
    say(f"update {10 * S} 0 {manual(5.0)}")  # SetDelay, the same again
    about(10 * S)
    s.tick(20 * S, watch=6, open=6)  # SetInput, and the delay did not move
    s.world[0].update(watch=6, open=6)
    about(20 * S)
    say(f"update {22 * S} 0 {manual(6.0)}")
    about(20 * S)
    about(22 * S)
    s.tick(23 * S, watch=8, open=8)
    about(22 * S)
    about(23 * S)
    say(f"update {30 * S} 0 A")  # back to automatic: no command
    say(f"settled {30 * S} 0")
    s = Supervisor(hold=HOLD, loaded=[("a", 500)])
    s.route(2 * S, 0, "a/1")  # SetInput and SetDelay at once
    about(2 * S)
    s.tick(S, watch=6, open=6)  # SetInput, where the clock went back: SetDelay's time is the later one
    about(S)
    about(2 * S)
    s = Supervisor(hold=HOLD)
    s.route(20 * S, 0, "a/1")
    s.tick(S, watch=6, open=6)  # the last SetInput, though the clock went back
    about(S)
    say(f"settled {20 * S} 0")

    section("settled: a route to nothing and back, an equal route, another flow, another input")
    s = Supervisor(n=2, hold=HOLD)
    s.route(0, 0, "a/1")
    s.route(0, 1, "b/1")
    s.route(10 * S, 0, None)
    about(10 * S)
    about(0, 1)
    s.route(11 * S, 0, "a/1")
    about(11 * S)
    s.route(17 * S, 0, "a/1", inode=9)  # equal: nothing is sent
    about(11 * S)
    say(f"settled {17 * S} 0")
    s.route(20 * S, 0, "c/1")
    about(20 * S)
    s.route(26 * S, 1, "c/1")  # the other input
    about(20 * S)
    about(26 * S, 1)
    s.route(LATEST, 1, "d/1")
    say(f"settled {LATEST} 1", f"settled {LATEST + 1} 1", f"settled {LATEST} 0", f"settled {S} 1")

    section("settled: hold 0 and hold 600 s")
    for hold in (0, 600 * S):
        s = Supervisor(hold=hold)
        s.route(S, 0, "a/1")
        say(f"settled {S} 0", "settled 0 0", f"settled {601 * S - 1} 0", f"settled {601 * S} 0")
