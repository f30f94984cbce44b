# plot: draws video values and audio bits over time as an SVG picture, with no library.
"""`svg(frames, marks)` gives the picture's text. A frame has its time and length in seconds, its video values (one, two or none) and its
audio fingerprints; a mark is a time and a word. A field's value is drawn at the field's time; a fingerprint's bits are spread
over the frame that carried them. Where there are more values than the picture has columns, a column shows the least and the
greatest value, and the share of ones as a shade."""
import collections
import html
import math

from tables import MIXES

Frame = collections.namedtuple("Frame", "time length video audio")

WIDTH, LEFT, RIGHT, TOP = 1200, 96, 24, 76
VIDEO_HEIGHT, GAP, BAND, BAND_GAP = 260, 44, 22, 6
INK, PALE, GRID, MARK = "#1f2933", "#7b8794", "#e4e7eb", "#b44d12"
FIELDS = [("#0b69a3", "field 1"), ("#de6b12", "field 2")]
ZERO, ONE = (226, 236, 233), (20, 125, 100)
SHADES = 5  # from no ones to all ones


class Sheet:
    """The picture's parts, and where a time lies in it."""

    def __init__(self, seconds):
        self.seconds, self.parts = float(seconds), []

    def x(self, time):
        return LEFT + float(time) / self.seconds * (WIDTH - LEFT - RIGHT)

    def line(self, x1, y1, x2, y2, colour, more=""):
        self.parts.append('<line x1="%.1f" y1="%.1f" x2="%.1f" y2="%.1f" stroke="%s"%s/>' % (x1, y1, x2, y2, colour, more))

    def text(self, x, y, words, colour=INK, anchor="start", size=13, more=""):
        self.parts.append('<text x="%.1f" y="%.1f" fill="%s" text-anchor="%s" font-size="%d"%s>%s</text>' % (
            x, y, colour, anchor, size, more, html.escape(words)))

    def box(self, x, y, width, height, colour):
        self.parts.append('<rect x="%.1f" y="%.1f" width="%.1f" height="%.1f" fill="%s"/>' % (x, y, width, height, colour))


def step_for(most, steps):
    """The least of 1, 2, 5, 10, .. (times a power of ten) that divides `most` into no more than so many steps."""
    power = 10 ** math.floor(math.log10(most / steps))
    return next(power * m for m in (1, 2, 5, 10, 20) if most / (power * m) <= steps)


def time_axis(sheet, top, bottom):
    step = step_for(sheet.seconds, 10)
    for count in range(int(sheet.seconds / step + 1e-9) + 1):
        x = sheet.x(count * step)
        sheet.line(x, top, x, bottom, GRID)
        sheet.text(x, bottom + 20, "%g" % (count * step), PALE, "middle")
    sheet.text((LEFT + WIDTH - RIGHT) / 2, bottom + 42, "time in seconds", PALE, "middle")


def video_points(frames, field):
    """Runs of (time, value): a run ends where a frame has no value for the field."""
    runs, run = [], []
    for frame in frames:
        if field < len(frame.video):
            run.append((frame.time + frame.length * field / len(frame.video), frame.video[field]))
        elif run:
            runs.append(run)
            run = []
    return runs + [run] if run else runs


def thinned(points, sheet):
    """The points, or where they crowd the least and the greatest of each column."""
    if len(points) <= 2 * WIDTH:
        return [(sheet.x(time), value) for time, value in points]
    columns = {}
    for time, value in points:
        columns.setdefault(int(sheet.x(time)), []).append(value)
    return [(x, edge(values)) for x, values in columns.items() for edge in (min, max)]


def video_panel(sheet, frames, top):
    bottom = top + VIDEO_HEIGHT
    most = next((n for n in (10, 20, 40, 60, 120) if n >= max([0, *(v for f in frames for v in f.video)])), 240)
    for tick in range(0, most + 1, max(1, most // 5) if most < 60 else most // 4):
        y = bottom - VIDEO_HEIGHT * tick / most
        sheet.line(LEFT, y, WIDTH - RIGHT, y, GRID)
        sheet.text(LEFT - 10, y + 4, str(tick), PALE, "end")
    sheet.text(28, (top + bottom) / 2, "video value", INK, "middle", more=' transform="rotate(-90 28 %.1f)"' % ((top + bottom) / 2))
    if not any(frame.video for frame in frames):
        sheet.text((LEFT + WIDTH - RIGHT) / 2, (top + bottom) / 2, "no container has video", PALE, "middle", 16)
    for field, (colour, _) in reversed(list(enumerate(FIELDS))):
        for run in video_points(frames, field):
            points = thinned(run, sheet)
            places = [(x, bottom - VIDEO_HEIGHT * value / most) for x, value in points]
            sheet.parts.append('<polyline points="%s" fill="none" stroke="%s" stroke-width="1.6" stroke-linejoin="round"/>' % (
                " ".join("%.1f,%.1f" % place for place in places), colour))
            if len(frames) <= 150 or len(run) == 1:
                sheet.parts.extend('<circle cx="%.1f" cy="%.1f" r="2.4" fill="%s"/>' % (*place, colour) for place in places)


def shades_of(sheet, frames, place):
    """For each column of the picture the shade of the bits of one fingerprint's place, or None."""
    columns = 2 * (WIDTH - LEFT - RIGHT)
    ones, bits = [0] * columns, [0] * columns
    for frame in frames:
        if place >= len(frame.audio):
            continue
        data = frame.audio[place].bytes
        begin, each = (float(part) / sheet.seconds * columns for part in (frame.time, frame.length / (8 * len(data))))
        for at in range(8 * len(data)):
            first, last = math.ceil(begin + at * each - 0.5), math.ceil(begin + (at + 1) * each - 0.5)
            for column in range(first, last) or [int(begin + at * each)]:
                if column < columns:
                    ones[column] += data[at // 8] >> at % 8 & 1
                    bits[column] += 1
    return [None if not bits[n] else round((SHADES - 1) * ones[n] / bits[n]) for n in range(columns)]


def colour_of(shade):
    return "#%02x%02x%02x" % tuple(round(a + (b - a) * shade / (SHADES - 1)) for a, b in zip(ZERO, ONE))


def audio_band(sheet, frames, place, top):
    shades = shades_of(sheet, frames, place)
    paths, start = collections.defaultdict(list), 0
    for end in range(1, len(shades) + 1):
        if end == len(shades) or shades[end] != shades[start]:
            if shades[start] is not None:
                paths[shades[start]].append("M%.1f %.1fh%.1fv%dH%.1fz" % (LEFT + start / 2, top, (end - start) / 2, BAND, LEFT + start / 2))
            start = end
    for shade, path in sorted(paths.items()):
        sheet.parts.append('<path d="%s" fill="%s" shape-rendering="crispEdges"/>' % ("".join(path), colour_of(shade)))
    named = next(frame.audio[place] for frame in frames if place < len(frame.audio))
    sheet.text(LEFT - 10, top + BAND * 0.7, "%d %s" % (named.id, MIXES[named.mix].name), INK, "end", 12)


def legend(sheet, frames, prints):
    two = any(len(frame.video) == 2 for frame in frames)
    x = LEFT
    for colour, name in FIELDS if two else [(FIELDS[0][0], "frame")]:
        sheet.line(x, 52, x + 26, 52, colour, ' stroke-width="3"')
        sheet.text(x + 34, 56, "video, " + name)
        x += 136
    for shade, name in ((SHADES - 1, "audio bit 1"), (0, "audio bit 0")) if prints else ():
        sheet.box(x, 44, 26, 15, colour_of(shade))
        sheet.text(x + 34, 56, name)
        x += 130
    if prints:
        sheet.text(x, 56, "blank: no audio in the container", PALE)


def mark_lines(sheet, marks, bottom):
    """A dashed line at each time marked, with its words where they have room."""
    words, free = {}, 0
    for time, word in marks:
        words.setdefault(time, []).append(word)
    for time, said in words.items():
        x, text = sheet.x(time), ", ".join(said)
        sheet.line(x, TOP, x, bottom, MARK, ' stroke-dasharray="4 3"')
        if x >= free:
            sheet.text(x + 4, TOP + 12, text, MARK, size=11)
            free = x + 8 + 6.2 * len(text)


def svg(frames, marks):
    seconds = frames[-1].time + frames[-1].length
    prints = max(len(frame.audio) for frame in frames)
    sheet = Sheet(seconds)
    audio_top = TOP + VIDEO_HEIGHT + GAP
    bottom = audio_top + max(1, prints) * (BAND + BAND_GAP)
    sheet.text(LEFT, 28, "Fingerprints of %d frame%s, %.3f s" % (len(frames), "s" * (len(frames) != 1), seconds), size=18, more=' font-weight="600"')
    time_axis(sheet, TOP, bottom)
    video_panel(sheet, frames, TOP)
    sheet.text(LEFT, audio_top - 10, "audio bits, a row for each fingerprint" if prints else "no container has audio", PALE, size=12)
    for place in range(prints):
        audio_band(sheet, frames, place, audio_top + place * (BAND + BAND_GAP))
    mark_lines(sheet, marks, bottom)
    legend(sheet, frames, prints)
    height = bottom + 60
    head = '<svg xmlns="http://www.w3.org/2000/svg" width="%d" height="%d" viewBox="0 0 %d %d" font-family="Helvetica, Arial, DejaVu Sans, sans-serif">' % (
        WIDTH, height, WIDTH, height)
    return "\n".join([head, '<rect width="100%" height="100%" fill="#ffffff"/>', *sheet.parts, "</svg>", ""])
