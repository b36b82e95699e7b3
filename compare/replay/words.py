"""What the parts of the replay list share: its lines, and how the protocol writes things."""
import struct

S = 1_000_000_000  # a second
LATEST = 4 * 10**18  # the latest time that check 8 takes
U32 = 2**32 - 1
U64 = 2**64 - 1
TOP = 2**63 - 1  # the largest counter that check 6 takes
NAN, INF = float("nan"), float("inf")
LEAST = 5e-324  # the least double above 0
BELOW_HALF = 49.99999999999999  # a percent whose share is just below a half

LINES = []
SECTIONS = []


def section(name):
    SECTIONS.append((len(LINES) + 1, name))


def say(*lines):
    LINES.extend(lines)


def bits(x):
    """A double as the protocol writes it."""
    return format(struct.unpack("<Q", struct.pack("<d", x))[0], "x")


def step(x, by):
    """The double `by` places above a positive one."""
    return struct.unpack("<d", struct.pack("<Q", struct.unpack("<Q", struct.pack("<d", x))[0] + by))[0]


def none(x):
    return "-" if x is None else x


def short(line):
    return "!5 " + line
