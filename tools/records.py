# records: the shape of a feed's records (docs/FEED.md), which recordings share, and writing them to standard output.
import os
import sys


def two(number):
    return number.to_bytes(2, "big")


def record(tag, *parts):
    """Tag, two bytes of length with the high byte first, payload."""
    payload = b"".join(bytes(part) for part in parts)
    return bytes([tag]) + two(len(payload)) + payload


def setup(format, rate, mixes, rule=1):
    """Setup by a mixing rule: 10h has no place for one, and is by rule 1."""
    return record(0x10, [format, rate], mixes) if rule == 1 else record(0x17, [format, rate, rule], mixes)


def split(feed):
    """The records of a whole feed, each with its tag and length."""
    records, at = [], 0
    while at < len(feed):
        end = at + 3 + int.from_bytes(feed[at + 1 : at + 3], "big")
        records.append(feed[at:end])
        at = end
    return records


def leave_quietly():
    """Ends a program whose reader has gone (as in `.. | head`), with nothing said and nothing left to flush."""
    os._exit(0)


def leave(name, fault):
    """Ends a program that could not open, read or write something, with one line."""
    print("%s: %s: %s" % (name, fault.filename or "standard output", fault.strerror), file=sys.stderr, flush=True)
    os._exit(1)


def pour(parts, name, thing="feed", file="x.feed", reader="card"):
    """Writes records to standard output, unless that is a terminal."""
    if sys.stdout.isatty():
        sys.exit("%s: a %s is no text: give a file (> %s) or a program (| crates/%s/out/%s)" % (name, thing, file, reader, reader))
    try:
        for part in parts:
            sys.stdout.buffer.write(part)
        sys.stdout.buffer.flush()
    except BrokenPipeError:
        leave_quietly()
    except OSError as fault:
        leave(name, fault)
