# containers: what a container says, worked out from document 01 ("The container") and 02's A2, for the scripts that show or check one.
import collections

from tables import MIXES, RATES

# `video` has no value, one or two; `audio` a Fingerprint for each; `id` 20 bytes or None.
Contents = collections.namedtuple("Contents", "counter rate id video audio")
Fingerprint = collections.namedtuple("Fingerprint", "id mix bytes")


class Refused(Exception):
    """A container that is not accepted; `number` is the first refusal of 01 that applies, as 02's A2 has 27."""

    def __init__(self, number):
        super().__init__(number)
        self.number = number


class Parts:
    """The bytes between the header and the checksum, taken from the front."""

    def __init__(self, data):
        self.data = data

    def take(self, size, number):
        if len(self.data) < size:
            raise Refused(number)
        taken, self.data = self.data[:size], self.data[size:]
        return taken


def video_part(parts, rate):
    kind = parts.take(1, 26)[0]
    count = {0x09: 1, 0x11: 2}.get(kind)
    if count is None or (count == 2 and rate not in (5, 6, 7)):
        raise Refused(26)
    values = parts.take(count, 26)
    if max(values) > 240:
        raise Refused(26)
    return list(values)


def audio_part(parts, rate):
    """Every fingerprint carries the same count, which occurs in the cadence of the container's rate (02, A2)."""
    count = parts.take(1, 27)[0]
    if count % 8 != 2:
        raise Refused(27)
    prints = []
    for _ in range(count // 8 + 1):
        name, size = parts.take(2, 27)
        if name % 8 not in MIXES or size % 8 != 0 or size // 8 not in RATES[rate].cadence:
            raise Refused(27)
        prints.append(Fingerprint(name // 8, name % 8, parts.take(size // 8, 27)))
    if len({len(one.bytes) for one in prints}) > 1:
        raise Refused(27)
    return prints


def head_fault(data):
    if len(data) < 5:
        return 20
    if data[0] != 0:
        return 21
    if len(data) != data[2] + 3:
        return 22
    if sum(data) % 256 != 0:
        return 23
    return 24 if data[3] >> 4 not in RATES or data[3] & 8 else 0


def read(data):
    """The contents of an accepted container; raises Refused otherwise."""
    if head_fault(data):
        raise Refused(head_fault(data))
    rate, flags, parts = data[3] >> 4, data[3], Parts(data[4:-1])
    if flags & 4 and parts.data[:1] != b"\0":
        raise Refused(25)
    name = parts.take(21, 25)[1:] if flags & 4 else None
    video = video_part(parts, rate) if flags & 2 else []
    audio = audio_part(parts, rate) if flags & 1 else []
    if parts.data:
        raise Refused(28)
    return Contents(data[1], rate, name, video, audio)


def spoken(contents):
    """The line of 01's program for an accepted container."""
    video = "".join(" %d" % value for value in contents.video)
    return "ok seq %d rate %d id %d video %d%s audio %d" % (
        contents.counter, contents.rate, contents.id is not None, len(contents.video), video, len(contents.audio))
