"""The calls alone: lines that cannot be read, numbers, one window, one hold, the clock helpers."""
from replay.words import *


# ---- numbers


def numbers():
    section("ms and samples")
    say(*(f"ms {n}" for n in [0, 1, 5, 7, 11, 48, 49, 480, 4799, 4800, 95999, 96000, 2**31, U32]))
    halves = [1.5, 2.5, 4.5, 96000.5]
    for m in [
        0.0, -0.0, 0.03125, 0.010416, 0.010417, 1.0, 100.0, 0.1, LEAST, -LEAST, -1.0, -INF, INF, NAN, -NAN,
    ]:
        say(f"samples {bits(m)}")
    say(*(f"samples {bits(h / 48)}" for h in halves))
    say(*(f"samples {bits(step(h / 48, by))}" for h in halves for by in (-1, 1)))
    say(*(f"samples {bits(m)}" for m in [89478485.3125, 89478485.32291667, 1e9, 1e300]))
    say(
        "samples 7ff0000000000001", "samples ffffffffffffffff", "samples 0",
        "samples 000000003ff0000000000000",
    )

    section("need")
    for lag in [0, 479, 480, 481, 482, 483, 485, 500, 3616, 3617, 5279, 5280, 5281, 5328]:
        say(f"need 480 4800 96 {bits(50.0)} {lag}")
    for percent in [0.0, 1000.0, 0.1, 33.3, LEAST, 999.9999999999999]:
        say(f"need 480 96000 0 {bits(percent)} 2000")
    say(f"need 0 0 0 {bits(0.0)} 0", f"need 96000 96000 96000 {bits(1000.0)} 96000")
    # Reading 13: rounding is not the floor of x and a half in doubles; both are 1.
    say(f"need 480 4800 0 {bits(BELOW_HALF)} 481", f"need 480 4800 0 {bits(50.0)} 481")
    # Reading 12: -0.0 is a percent. The percent is asked itself: the greatest below 0 is none, though its share is -0.0.
    say(f"need 480 4800 96 {bits(-0.0)} 485", f"need 480 4800 96 {bits(-LEAST)} 485")
    bad_percents = [-1.0, -49 * LEAST, -51 * LEAST, step(1000.0, 1), 1001.0, NAN, -NAN, INF, -INF]
    say(*(f"need 480 4800 96 {bits(p)} 485" for p in bad_percents))
    say(
        f"need 96001 4800 96 {bits(50.0)} 485", f"need 480 96001 96 {bits(50.0)} 485",
        f"need 480 4800 96001 {bits(50.0)} 485",
    )
    say(f"need 480 96001 96 {bits(NAN)} 485", f"need 480 96001 96 {bits(-LEAST)} 485")  # 2 before 4

    section("index_at and time_of")
    say(
        *(
            f"index_at {t}" for t in [0, 1, 20833, 20834, 41666, 41667, S - 1, S, LATEST - 1, LATEST, LATEST + 1, U64]
        )
    )
    say(*(f"time_of {i}" for i in [0, 1, 2, 3, 47999, 48000, 10**14]))
    # Reading 19: the largest index that has a time.
    say("time_of 885443715538058", "time_of 885443715538059", f"time_of {U64}")


# ---- the window alone


def window():
    section("a window alone, before the first wnew: of width 4 for offset and maximum 0")
    say("wspan", "wpush 0 5", "wpush 4799 6", "wpush 4800 7", f"wpush {U32} 8", f"wquant {bits(1.0)} {U32}")

    section("a window alone: document 01's examples")
    say("wnew 480 4800 48", "wspan", f"wquant {bits(0.5)} {U32}", "wpush 0 1000", "wpush 100 1000")
    say(f"wquant {bits(1.0)} 95", f"wquant {bits(1.0)} 96", f"wquant {bits(1.0)} 47")
    say(f"wset 5:1000,0=999,1=1", f"wquant {bits(0.999)} {U32}")
    say(f"wset 5:1000,0=998,1=2", f"wquant {bits(0.999)} {U32}")

    section("a window alone: seconds, buckets, quantiles")
    say("wclear", "wspan")
    for lag, now in [
        (0, 7), (47, 6), (48, S + 6), (95, S + 7), (96, 2 * S + 7), (10079, 5 * S), (10080, 9 * S),
        (U32, 10 * S + 6),
    ]:
        say(f"wpush {lag} {now}")
    say(
        "wspan", "wpush 1 10000000007", "wspan", "wpush 2 11000000007", "wpush 3 11000000008",
        "wpush 4 12000000007", "wspan",
    )
    say(f"wpush 5 {3 * S}", "wpush 6 0")  # the clock goes back: the newest second goes on
    # Reading 18: beyond the last bucket a lag counts in the last; its end is (211 + 1) times 48.
    for q in [0.0, -0.0, LEAST, 0.25, 0.5, 0.99, 0.999, 1.0]:
        say(f"wquant {bits(q)} {U32}")
    for limit in [0, 47, 48, 5280, 10079, 10080, 10127, 10128]:
        say(f"wquant {bits(1.0)} {limit}")
    say("wpush 9 40000000000", "wspan")  # every other second goes
    # A quantile of 0 asks for the first lag, not for the first bucket.
    say(
        "wset 0:3,5=2,7=1", f"wquant {bits(0.0)} {U32}", f"wquant {bits(0.67)} {U32}",
        f"wquant {bits(0.66)} {U32}", f"wquant {bits(1.0)} 239",
    )
    # 11 seconds, the most there are, spanning 10 s; one more makes the oldest go, or two.
    eleven = " ".join(f"{k * S}:{k + 1},{k}={k + 1}" for k in range(11))
    say(
        f"wset {eleven}", "wspan", f"wquant {bits(0.5)} {U32}", f"wpush 500 {11 * S - 1}",
        f"wpush 501 {11 * S}", f"wpush 502 {12 * S + 1}",
    )
    say(f"wset {eleven}", f"wpush 7 {10 * S + 1}", f"wpush 7 {20 * S + 1}", f"wpush 7 {LATEST}")
    # Large counts: a target is a double, raised to the next whole number.
    say(
        f"wset 0:{U32},0={U32 - 5},3=5 {S}:{U32},3={U32}", f"wquant {bits(0.5)} {U32}",
        f"wquant {bits(0.999)} {U32}", f"wquant {bits(step(1.0, -1))} {U32}",
    )

    section("a window alone: sizes")
    for words in [
        "0 0 4800", "0 0 1", "96000 96000 4800", "0 0 4799", "480 4800 4", "11579 0 4", "11580 0 4",
    ]:
        say(f"wnew {words}", "wpush 5 5", "wpush 4294967295 5", f"wquant {bits(1.0)} {U32}")

    section("a window alone: refusals")
    say(
        "wnew 96001 0 4800", "wnew 0 96001 4800", "wnew 480 4800 0", "wnew 480 4800 4801", "wnew 480 4800 2",
        "wnew 0 11580 4",
    )
    # Document 02, 1: 2, 17, 18 in this order, each alone and with the others, before 5.
    say(
        "wnew 96001 0 0", "wnew 0 96001 4801", "wnew 96001 96001 1", "wnew 96000 96000 0", "wnew 96000 96000 1",
        f"wnew 0 0 {U32}", f"wnew {U32} {U32} 4801", short("wnew 480 96001 48"), short("wnew 480 4800 0"), short("wnew 480 4800 2"),
        short("wnew 480 4800 48"), f"wnew {U32} {U32} 1",
    )
    say("wnew 480 4800 48", "wpush 1 5")
    half = bits(0.5)
    say(short("wpush 1 5"), short("wclear"), short("wspan"), short(f"wquant {half} 5"))
    say(f"wpush 1 {LATEST + 1}", f"wpush 1 {U64}", short(f"wpush 1 {U64}"))
    say(
        *(f"wquant {bits(q)} 5" for q in [-LEAST, -1.0, step(1.0, 1), 2.0, NAN, -NAN, INF, -INF]),
        short(f"wquant {bits(NAN)} 5"),
    )
    say("wpush 2 6")
    not_whole = [
        "5:1",  # the row's sum is not its total
        "5:0,3=1",
        f"5:{2**32},3={U32},4=1",  # a total above 4,294,967,295
        f"{LATEST + 1}:1,3=1",  # a time above 8's
        f"5:1,3=1 {S + 4}:1,3=1",  # less than 1 s after the one before
        f"5:1,3=1 4:1,3=1",
        f"5:1,3=1 {10 * S + 6}:1,3=1",  # a span above 10 s
        " ".join(f"{k * S}:1,3=1" for k in range(12)),  # 12 seconds
    ]
    for rows in not_whole:
        say(f"wset {rows}", "wspan")
    # 6 before 8 and 14, after 5
    say(
        "wset 5:1", "wclear", "wpush 1 5", f"wquant {half} 5", f"wpush 1 {LATEST + 1}",
        f"wquant {bits(NAN)} 5", short("wspan"),
    )
    whole = [
        f"{LATEST}:1,3=1", f"5:1,3=1 {S + 5}:1,3=1", f"5:1,3=1 {10 * S + 5}:1,3=1", "5:0", "5:0 9000000000:0",
    ]
    for rows in whole:
        say(f"wset {rows}", "wspan", f"wquant {half} {U32}")
    # 11: a total at its limit, in its second and after it; 8 comes before it.
    say(
        f"wset 5:{U32 - 1},3={U32 - 1}", "wpush 144 6", "wpush 144 6", f"wpush 0 {S + 4}",
        f"wpush 0 {LATEST + 1}", "wspan",
    )
    say(f"wset 5:{U32},3={U32}", "wpush 144 0", f"wpush 144 {S + 5}", "wset", "wspan", "wclear", "wpush 1 1")


# ---- the hold alone


def nxt(
    now, p999=None, lag=None, current=0, offset=480, maximum=4800, w=48, hold=30 * S, window=10 * S,
    margin=96, percent=50.0,
):
    policy = f"{offset} {maximum} {w} {hold} {window} {margin} {bits(percent)}"
    return f"next {policy} {none(p999)} {none(lag)} {current} {now}"


def hset(peaks=(), change=None, timer=None, started=None, lates=0, late=0, seed=None):
    """The fields of a hold; timer and seed are pairs."""
    pair = lambda p: "-" if p is None else f"{p[0]}:{p[1]}"
    rest = f"{none(change)} {pair(timer)} {none(started)} {lates} {late} {pair(seed)}"
    return " ".join(["hset", str(len(peaks)), *map(pair, peaks), rest])


def hold():
    section("a hold alone: document 01's examples")
    for lag in (485, 480, 5281):
        say("hnew", nxt(1000, lag=lag))
    for current in (47, 48, 143, 144):
        say("hnew", nxt(1000, p999=480, current=current))
    say(
        "hnew", nxt(1000, p999=480, current=200), nxt(1000 + 5 * S - 1, p999=480, current=200),
        nxt(1000 + 5 * S, p999=480, current=200),
    )

    section("a hold alone: step 1, start-up")
    for age in (60 * S - 1, 60 * S):
        # The start-up hold of 5 s lowers, the policy's of 30 s does not yet.
        say(hset(started=0, timer=(age - 6 * S, 96)), nxt(age, p999=480, current=200))
        # A peak 6 s old is beyond the start-up window, within the policy's.
        say(hset(started=0, peaks=[(age - 6 * S, 1000)]), nxt(age, p999=480, current=48))
    for lates in (0, 1, 2, 3, 255):
        say(hset(started=0, lates=lates, timer=(4 * S, 96)), nxt(10 * S, p999=480, current=200))
    # A hold and a window below 5 s stay what they are, in start-up too.
    say(
        hset(started=0, timer=(4 * S, 96)), nxt(6 * S, p999=480, current=200, hold=2 * S),
        hset(started=0, peaks=[(4 * S, 1000)]), nxt(6 * S, p999=480, current=48, window=2 * S),
    )
    say("hnew", nxt(7, p999=480, current=96), nxt(3, p999=480, current=96))  # the clock goes back

    section("a hold alone: step 2, the seed's age")
    for age in (30 * S - 1, 30 * S):
        say(hset(started=0, seed=(5, 2000)), nxt(5 + age, p999=480, current=1000))
        say(hset(started=0, seed=(5, 2000), lates=2), nxt(5 + age, p999=480, current=1000))
    # the policy's hold, in start-up too
    say(hset(started=0, seed=(5, 2000)), nxt(5 + 6 * S, p999=480, current=1000))
    say(hset(started=0, seed=(5, 2000)), nxt(5, p999=480, current=1000, hold=0))

    section("a hold alone: step 3, late, start-up lates, the seed's need")
    for lag in (580, 581, 5280, 5281, U32):
        say(hset(started=0, change=1), nxt(2 * S, lag=lag, current=100))
    for change, late, lates, now in [
        (None, 0, 0, 2 * S), (1, 1, 0, 2 * S), (1, 0, 1, 2 * S), (1, 0, 1, 61 * S), (1, 0, 2, 2 * S),
        (1, 0, 255, 2 * S),
    ]:
        say(hset(started=0, change=change, late=late, lates=lates), nxt(now, lag=600, current=100))
    # A not-late ends a late.
    say(hset(started=0, change=1, late=1), nxt(2 * S, lag=500, current=100), nxt(3 * S, lag=600, current=100))
    say(
        hset(started=0, change=1, late=1), nxt(2 * S, current=100), hset(started=0, change=1, late=1),
        nxt(2 * S, lag=5281, current=100),
    )
    # need(485) = 104, and 48: a seed of 152 is reached, 153 is not; without a lag none is.
    for seed in (151, 152, 153):
        say(hset(started=0, seed=(5, seed)), nxt(6, lag=485, p999=480, current=200))
    say(
        hset(started=0, seed=(5, 0)), nxt(6, p999=480, current=200), hset(started=0, seed=(5, 0)),
        nxt(6, lag=5281, p999=480, current=200),
    )
    say(hset(started=0, seed=(5, 4800), lates=7), nxt(6, lag=5280, p999=480, current=4800))
    # Reading 9: step 1 decides about start-up for the whole call, before step 3 counts the second late.
    say(
        hset(started=0, change=1, lates=1, peaks=[(1 * S, 3000)]), nxt(7 * S, lag=600, p999=480, current=100),
        nxt(8 * S, lag=500, p999=480, current=4000),
    )
    say(
        hset(started=0, seed=(1, 100), timer=(1, 96)), nxt(6 * S, lag=481, p999=480, current=200),
        nxt(6 * S + 1, lag=481, p999=480, current=200),
    )

    section("a hold alone: step 4, peaks")
    for age in (0, S - 1, S, S + 1):
        say(hset(started=0, lates=2, peaks=[(5, 700)]), nxt(5 + age, lag=650, p999=600, current=2000))
    say(
        hset(started=0, lates=2, peaks=[(5, 700)]), nxt(6, lag=800, current=2000),
        nxt(7, p999=900, current=2000), nxt(8, current=2000), nxt(2, lag=950, current=2000),
    )
    for age in (10 * S - 1, 10 * S, 10 * S + 1):
        say(hset(started=0, lates=2, peaks=[(5, 3000), (S + 5, 700)]), nxt(5 + age, p999=600, current=300))
    say(
        hset(started=0, peaks=[(5, 3000)]), nxt(5 + 5 * S, p999=600, current=300),
        hset(started=0, peaks=[(5, 3000)]), nxt(4 + 5 * S, p999=600, current=300),
    )
    say(
        hset(started=0, lates=2, peaks=[(5, 3000), (3 * S, 100), (9 * S, 200)]), nxt(13 * S + 1, current=100),
        nxt(19 * S, current=100), nxt(99 * S, current=100),
    )

    section("a hold alone: steps 5 and 6, when it raises")
    # No percentile and not late: no change, and the timer stays.
    say(
        hset(started=0, timer=(3, 96)), nxt(9 * S, lag=480, current=200),
        hset(started=0, timer=(3, 96), seed=(3, 500)), nxt(9 * S, current=200),
    )
    say(hset(started=0, timer=(3, 96)), nxt(9 * S, lag=681, current=200))
    # Half the margin, rounded down: need(533) = 53 + 96 + 27; half is (176 + 480 - 533) / 2 = 61.
    for current in (113, 114, 115):
        say(hset(started=0), nxt(9, p999=533, current=current))
    # Late raises where half the margin alone would not, up to the need.
    for current in (103, 104, 105):
        say(hset(started=0, seed=(5, 600)), nxt(9, lag=585, p999=480, current=current))
    say(
        hset(started=0), nxt(9, lag=5280, p999=5328, current=4799), hset(started=0),
        nxt(9, lag=5280, p999=5328, current=4800),
    )
    say(
        hset(started=0, seed=(5, 600)), nxt(9, p999=480, current=47), hset(started=0, seed=(5, 600)),
        nxt(9, p999=480, current=48), hset(started=0, seed=(5, 600)), nxt(9, p999=480, current=599),
    )
    say(
        hset(started=0), nxt(9, p999=0, current=0), hset(started=0), nxt(9, p999=384, current=0),
        hset(started=0), nxt(9, p999=385, current=0),
    )
    say(
        hset(started=0), nxt(9, p999=500, current=19, margin=0, percent=0.0), hset(started=0),
        nxt(9, p999=500, current=20, margin=0, percent=0.0),
    )

    section("a hold alone: steps 7 and 8, when it lowers")
    for current in (343, 344, 345):  # need(600) = 276; the seed of 296 counts
        say(hset(started=0, seed=(5, 296), timer=(1, 9)), nxt(9, p999=600, current=current))
    # The highest need met, not the last one; the timer goes with the lowering.
    say(
        hset(started=0, lates=2), nxt(0, p999=500, current=900), nxt(15 * S, p999=700, current=900),
        nxt(27 * S, p999=480, current=900), nxt(30 * S - 1, p999=480, current=900),
        nxt(30 * S, p999=480, current=900), nxt(30 * S + 1, p999=480, current=426),
    )
    # Both the timer and the last change are at least a hold old.
    for timer, change in [(S, S), (S, S + 1), (S + 1, S), (S, None), (S + 1, None), (S, 40 * S)]:
        say(hset(started=0, lates=2, timer=(timer, 96), change=change), nxt(31 * S, p999=480, current=900))
    say(
        hset(started=0, timer=(S, 96), change=S + 1), nxt(6 * S, p999=480, current=900),
        nxt(6 * S + 1, p999=480, current=900),
    )
    say(
        hset(started=0), nxt(5, p999=480, current=900, hold=0), hset(started=0, timer=(9, 4000)),
        nxt(5, p999=480, current=4800, hold=0),
    )
    # a need that is not lower turns it off
    say(hset(started=0, timer=(0, 500)), nxt(3, p999=900, current=600))

    section("a hold alone: 600 peaks")
    peaks = [(k * S, 490 + k % 7) for k in range(600)]
    say(hset(started=0, lates=2, peaks=peaks), nxt(600 * S, lag=3000, p999=480, current=4000, window=600 * S))

    section("a hold alone: refusals")
    say("hnew", short("hnew"), nxt(5, p999=480, current=100))
    say(
        nxt(5, offset=96001), nxt(5, maximum=96001), nxt(5, w=0), nxt(5, w=4801),
        nxt(5, p999=480, w=1, offset=96000, maximum=96000),
    )
    # Document 02, 1: 2, 17, 18 in this order, each alone and with the others, before 3; 4,096 buckets and 4,097
    say(
        nxt(5, offset=96001, w=0), nxt(5, maximum=96001, w=2), nxt(5, maximum=96001, w=4801), nxt(5, w=0, offset=96000),
        nxt(5, w=4801, offset=U32, maximum=U32), nxt(5, w=U32, hold=U64), nxt(5, w=2, hold=U64), nxt(5, w=0, percent=NAN), short(nxt(5, w=2)),
        nxt(5, w=4, offset=11579, maximum=0), nxt(5, w=4, offset=11580, maximum=0),
    )
    say(
        nxt(5, hold=600 * S + 1), nxt(5, window=S - 1), nxt(5, window=600 * S + 1), nxt(5, hold=U64),
        nxt(5, hold=600 * S, window=600 * S, p999=480),
    )
    say(
        nxt(5, margin=96001), nxt(5, percent=NAN), nxt(5, percent=-1.0), nxt(5, percent=1001.0),
        nxt(5, percent=INF), nxt(5, percent=-LEAST, p999=480), nxt(5, percent=-0.0, p999=480),
        nxt(5, percent=step(1000.0, 1)), nxt(5, percent=1000.0, p999=480),
    )
    say(
        short(nxt(5, p999=480)), nxt(LATEST), nxt(LATEST + 1), nxt(U64), nxt(5, current=4801),
        nxt(5, p999=5329), nxt(5, p999=5328, current=4800), nxt(5, p999=5328, lag=U32),
    )
    say(
        nxt(5, offset=96001, hold=U64), nxt(5, hold=U64, percent=NAN), short(nxt(5, percent=NAN)),
        nxt(5, offset=96001, percent=-LEAST), nxt(5, hold=U64, percent=-LEAST), short(nxt(5, percent=-LEAST)),
        short(nxt(LATEST + 1)), nxt(LATEST + 1, current=4801),
    )
    bad = [
        hset(peaks=[(5, 100), (S + 4, 100)]),  # less than 1 s apart
        hset(peaks=[(5, 100), (4, 100)]),
        hset(peaks=[(5, 100), (10 * S + 5, 100)]),  # a span of the window
        hset(peaks=[(5, 5329)]),  # a peak above offset + maximum + W
        hset(peaks=[(LATEST + 1, 5)]),
        hset(change=LATEST + 1),
        hset(started=LATEST + 1),
        hset(timer=(LATEST + 1, 5)),
        hset(timer=(5, 4801)),
        hset(seed=(5, 4801)),
        hset(seed=(LATEST + 1, 5)),
    ]
    for fields in bad:
        say(fields, nxt(5, p999=480))
    # 6 before 8 and 15, after 5 and 4
    say(nxt(LATEST + 1), nxt(5, current=4801), short(nxt(5)), nxt(5, percent=NAN))
    say(hset(peaks=[(k * S, 5) for k in range(601)]), nxt(5, p999=480, window=600 * S), "hnew")
    good = [
        hset(
            peaks=[(5, 100), (S + 5, 5328)], change=LATEST, started=LATEST, timer=(LATEST, 4800),
            seed=(LATEST, 4800), lates=255,
        ),
        hset(peaks=[(5, 100), (10 * S + 4, 100)]),
    ]
    for fields in good:
        say(fields, nxt(5, p999=480, current=200))
    # Reading 15: the peaks' span is measured against the policy's window, not the start-up one;
    # the same hold is whole with a longer window.
    say(
        hset(peaks=[(5, 100), (10 * S + 5, 100)], started=0), nxt(5, p999=480, window=10 * S + 1),
        hset(peaks=[(5, 100), (7 * S, 100)], started=0), nxt(7 * S, p999=480),
    )
    say(hset(peaks=[(5, 5329)]), nxt(5, w=49, p999=5329))  # Reading 1: `next` is given W


# ---- the clock helpers


def helpers():
    section("Coalesce")
    say(
        "co_pending", "co_take", "co_take_due 5", f"co_changed 5 {S}", "co_pending", f"co_changed 6 {S}",
        f"co_changed 7 0", f"co_take_due {S + 4}", f"co_take_due {S + 5}", "co_pending",
        f"co_take_due {S + 5}",
    )
    say(
        "co_changed 5 0", "co_take_due 0", "co_take_due 4", "co_take", "co_take",
        f"co_changed {LATEST} {600 * S}", f"co_take_due {LATEST}", "co_take",
    )
    say(
        f"co_changed 5 {600 * S + 1}", f"co_changed {LATEST + 1} 5", f"co_take_due {LATEST + 1}",
        f"co_changed {LATEST + 1} {600 * S + 1}",
    )
    say(
        f"co_set {LATEST + 600 * S}", "co_pending", "co_take", f"co_set {LATEST + 600 * S + 1}", "co_pending",
        "co_take", "co_take_due 5", "co_changed 5 5",
    )
    say(
        f"co_changed 5 {U64}", f"co_changed {U64} 5", f"co_take_due {U64}", "co_set -", "co_pending",
        "co_set 7", "co_take_due 7",
    )

    section("Schedule")
    say(
        "q_set -", "q_up 0", "q_failed 5", f"q_up {5 * S + 4}", f"q_up {5 * S + 5}",
        *(f"q_failed {k * 100 * S}" for k in range(1, 6)), "q_up 0", f"q_failed {LATEST}", f"q_up {LATEST}",
    )
    say(
        "q_set 7:0", "q_up 6", "q_up 7", "q_failed 9", f"q_set 7:{30 * S}", "q_failed 9",
        f"q_set 7:{30 * S + 1}", "q_failed 9", f"q_set 7:{60 * S}", "q_failed 9", "q_set 7:1", "q_failed 9",
    )
    say(
        f"q_up {LATEST + 1}", f"q_failed {LATEST + 1}", f"q_set 7:{60 * S + 1}", "q_up 5", "q_failed 5",
        f"q_up {U64}", f"q_failed {U64}",
    )
    say(
        f"q_set {LATEST + 600 * S}:5", "q_up 5", f"q_set {LATEST + 600 * S + 1}:5", "q_up 5", "q_failed 5",
        "q_set -", f"q_failed {U64}", "q_up 5",
    )


# ---- what cannot be read


def bad_lines():
    section("lines that cannot be read, and calls before `new`")
    say(
        "dump", "status 0 0 2", "has 0 2 2", "settled 0 0", "route 0 0 a/1 5 1 2 0", "update 0 0 A",
        "confirm 0 0", "tick 0 L", "put 0 delays 5 -",
    )
    say(
        "", " ", "snore", "ms", "ms 5 5", "ms  5", " ms 5", "ms 5 ", "ms -1", "ms +1", "ms 5.0",
        "ms 4294967296", "ms 0x5", "ms 00048", "MS 5", "ms -", "ms 18446744073709551616",
    )
    say(
        "samples 3FF0000000000000", "samples 13ff0000000000000", "samples g", "samples -", "need 1 2 3 4",
        "need 480 4800 96 4049000000000000 4294967296", "index_at 18446744073709551616",
    )
    say(
        "full 2", "full", "full 0 0", "wset 5", "wset 5:1,3", "wset 5:1,3=-", "wset 5:1,3=4294967296",
        "hset 1 - - - 0 0 -", "hset 0 - - - 256 0 -", "hset 0 - - - 0 2 -", "hset 0 - - - 0 0",
        "hset 0 - 5 - 0 0 -",
    )
    say(
        "next 480 4800 48 1 1 96 0 - - -", "co_set", "co_set x", "q_set 5", "q_set 5:", "q_set :5",
        "wquant 3ff0000000000000", "hnew 5", "!5", "!5 ", "!5 snore", "! ms 5", "ms\t5", "ms 5\t",
        "ms \u0663", "\u00fc", "dry", "dry ms 5", "flush", "full 0", "full 00",
    )
    # A carriage return before the newline is no part of the line.
    say("ms 5\r", "flush\r", "ms 5\r\r", "ms\r5", "\r")


def calls():
    bad_lines()
    numbers()
    window()
    hold()
    helpers()
