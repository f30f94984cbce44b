# tables: document 01's formats, rates, mix types and refusal numbers, with those that 02 adds, said once for every script here.
"""The tables of documents 01 and 02 that the scripts of tools/ and tests/ share.

  FORMATS[number]    a Format; format_named("720p") finds one by name
  RATES[code]        a Rate; rate_named("29.97") finds one by name
  MIXES[type]        a Mix
  RULES[number]      how a mixing rule rounds
  REFUSALS[number]   what a refusal means
  NUMBERS[call]      the numbers that a call can answer, in the papers' order
  MENDED             the numbers that the program `mend` can tell, in the papers' order
  RECEIVED[call]     the numbers that a call of the program `receive` can answer, in the papers' order
  JUDGED[thing]      the numbers that the program `judge` can tell of a file and of a packet, in the papers' order
  FAULTS             the words of its other lines, in the papers' order

All in the papers' words and order; nothing here is taken from a program.
"""
import collections
import fractions

# `starts` has the first monitored line of each field, `rates` the codes that the format takes. A picture of `rows` rows lies on the
# raster's active lines: `active` has for each field the line that its first row lies on, and which row of the picture that is.
Format = collections.namedtuple("Format", "number name width lines starts step rates rows active")
# `cadence` has the bytes of each frame from frame 1 on, after which it starts again.
Rate = collections.namedtuple("Rate", "code name hertz interval cadence")
Mix = collections.namedtuple("Mix", "type name channels layout")

ANY = tuple(range(2, 12))
MONITORED = 16  # lines of a field
PIXELS = 60  # of a monitored line
LARGEST = 4 + 21 + 3 + 225 + 1  # bytes of a container: 254 (02, A7)
LONGEST_RECORDING = 65536  # bytes (02, A8)
MOST_PACKETS = 500  # of a file to judge (02, A13)
SOUND_RATE = 48000

# 01, "Video: formats and the 960 bytes". Active lines: ST 125 (525 and 625 lines), ST 296, ST 274, ST 2048-2; 2160 rows at twice the
# lines of 1080p, since no paper here says. In 525 lines the picture's first row belongs to field 2.
FORMATS = [
    Format(0, "485i", 720, 525, (60, 323), 10, (6,), 486, ((21, 1), (283, 0))),
    Format(1, "576i", 720, 625, (68, 381), 12, (5,), 576, ((23, 0), (336, 1))),
    Format(2, "720p", 1280, 750, (117,), 32, ANY, 720, ((26, 0),)),
    Format(3, "1080i", 1920, 1125, (89, 652), 24, (5, 6, 7), 1080, ((21, 0), (584, 1))),
    Format(4, "1080p", 1920, 1125, (178,), 48, ANY, 1080, ((42, 0),)),
    Format(5, "2048x1080p", 2048, 1125, (206,), 46, ANY, 1080, ((42, 0),)),
    Format(6, "3840x2160p", 3840, 2250, (412,), 92, ANY, 2160, ((83, 0),)),
    Format(7, "4096x2160p", 4096, 2250, (412,), 92, ANY, 2160, ((83, 0),)),
]


def cadence(length, usual, other, at):
    """So many frames of `usual` bytes, but `other` at these, which count from 1."""
    return tuple(other if frame in at else usual for frame in range(1, length + 1))


# 01, "Audio: mix, filters, bits": code, rate, D, bytes per frame.
RATES = {
    code: Rate(code, name, fractions.Fraction(frames, seconds), interval, row)
    for code, name, frames, seconds, interval, row in [
        (2, "23.98", 24000, 1001, 52, cadence(16, 5, 4, (1, 6, 11))),
        (3, "24", 24, 1, 50, (5,)),
        (4, "47.95", 48000, 1001, 52, cadence(32, 2, 3, (3, 5, 8, 10, 13, 15, 18, 20, 23, 25, 28, 30, 32))),
        (5, "25", 25, 1, 50, (4, 5, 5, 5, 5)),
        (6, "29.97", 30000, 1001, 52, cadence(20, 4, 3, (1, 7, 14))),
        (7, "30", 30, 1, 50, (4,)),
        (8, "48", 48, 1, 50, (2, 3)),
        (9, "50", 50, 1, 50, (2, 2, 3, 2, 3)),
        (10, "59.94", 60000, 1001, 52, cadence(40, 2, 1, (1, 14, 27))),
        (11, "60", 60, 1, 50, (2,)),
    ]
}

# The layout is ffmpeg's name of the channels; its 5.0 comes as L, R, C, Ls, Rs.
MIXES = {1: Mix(1, "mono", 1, "mono"), 2: Mix(2, "stereo", 2, "stereo"), 5: Mix(5, "5.1", 5, "5.0")}

# 01, Audio; 02, A9.
RULES = {1: "down, towards minus infinity", 2: "towards zero"}

# 01, "What a caller is told", as 02's A3 (14), A5 (40 to 43), A7, A8 (50, 51), A9 (1), A12 (70 to 73) and A13 (80 to 82) leave it.
REFUSALS = {
    1: "format, rate pairing, mixing rule, fingerprint count or mix type not listed, or a session that is not set up",
    2: "line length not 2 x width",
    3: "line number not 1 to the format's lines",
    4: "monitored line, but not the one expected",
    5: "first line of a frame while one is ready",
    7: "no such fingerprint",
    8: "block length no multiple of one instant",
    9: "held plus new bits above 256",
    10: "no ready frame",
    11: "ID length neither 0 nor 20",
    12: "output too short",
    14: "instant with a NaN, or of another kind than the fingerprint's mix type",
    20: "container under 5 bytes",
    21: "container's version not 0",
    22: "container's size not Length + 3",
    23: "container's checksum",
    24: "container's rate code or bit 3",
    25: "container's ID part",
    26: "container's video part",
    27: "container's audio part",
    28: "container's bytes left over",
    29: "contents that no reading gives",
    30: "packet of odd size or with a word above 3FFh",
    31: "packet under 7 words",
    32: "packet's first three words",
    33: "packet's fourth or fifth word",
    34: "packet's count word's parity, or words not count + 7",
    35: "packet's user word's parity",
    36: "packet's checksum",
    40: "transport packet under 10 bytes",
    41: "transport packet's start code",
    42: "transport packet's length",
    43: "transport packet's CRC",
    50: "no acceptable field in the recording",
    51: "recording longer than 65,536 bytes",
    70: "container late: its counter 128 or more from the expected one",
    71: "container too far: its counter 8 to 127 from the expected one",
    72: "container already held",
    73: "next container not there",
    80: "file empty, or cut inside a field",
    81: "field of another tag",
    82: "more than 500 packets",
}

READING = tuple(range(20, 29))
# 01, "What a caller is told", as 02's A3 (instant), A5 (stream, unstream), A7 (pack, write) and A8 (mend) leave it: the numbers of each call as the feed names it,
# 0 for success. 51 is none of them, since no record holds so long a recording.
NUMBERS = {
    "setup": (0, 1),
    "line": (0, 1, 2, 3, 4, 5),
    "sound": (0, 1, 7, 8, 9),
    "instant": (0, 1, 7, 14, 9),
    "pack": (0, 1, 10, 11, 12),
    "sample": (0, 1, 2, 12),
    "read": (0, *READING),
    "rewrite": (0, *READING, 12),
    "wrap": (0, *READING, 12),
    "unwrap": (0, *range(30, 37), *READING, 12),
    "write": (0, 29, 12),
    "stream": (0, *READING, 12),
    "unstream": (0, *range(40, 44), *READING, 12),
    "mend": (0, 50, 12),
}
# 02, A8: the program only reports, so that no room can be too short (12); 0 where it tells what is dropped and kept.
MENDED = (0, 51, 50)
# 02, A12: the calls as the program names them; giving up is never refused, and has no number.
RECEIVED = {
    "arrive": (0, *READING, 70, 71, 72),
    "next": (0, 73, 12),
}
# 02, A13: of a file at one place; of a packet as Read packet has them, without 12, since no room can be too short.
JUDGED = {
    "file": (82, 81, 80),
    "packet": (*range(30, 37), *READING),
}
FAULTS = ("counter", "rate", "count", "cadence")


def format_named(name):
    return next(format for format in FORMATS if format.name == name)


def rate_named(name):
    return next(rate for rate in RATES.values() if rate.name == name)


def monitored_lines(format):
    """The monitored lines in the order in which they come: (line number, field from 0)."""
    return [(start + row * format.step, field) for field, start in enumerate(format.starts) for row in range(MONITORED)]
