"""For contrib/ladder: the picture of a run as SVG."""
import html
import math
from dataclasses import dataclass

from ladder_run import bar_end

# Pixels.
ROW = 32
TOP = 56
GAP = 440
MARGIN = 16
LETTER = 7
BAR = 7

# How many arrows before and after one its label is kept away from, and how often the labels are placed anew.
NEAR = 12
PASSES = 3
STYLE = """
text { font: 12px sans-serif; fill: #222; stroke: #fff; stroke-width: 3px; paint-order: stroke; }
.name { font-weight: bold; }
.mid { text-anchor: middle; }
.end { text-anchor: end; }
.moment, .nothing text { fill: #666; }
.rule { stroke: #eee; }
.life { stroke: #444; stroke-width: 1.5; }
.shaft, .cross { stroke: #1f4e79; stroke-width: 1.4; fill: none; }
.head { fill: #1f4e79; }
.copy .shaft { stroke: #9a9a9a; }
.copy .head { fill: #9a9a9a; }
.copy text { fill: #777; }
.reply.busy .shaft { stroke-dasharray: 6 4; }
.lost .cross { stroke: #b3261e; stroke-width: 2; }
.lost .fate, .dropped .fate { fill: #b3261e; }
.restart rect { fill: #f3d9a4; }
.restart line { stroke: #8a5a00; stroke-width: 4; }
.sense circle { fill: #2e7d32; }
"""


def tag(name, content="", **attributes):
    """An element; in the names of attributes `_` stands for `-`, and the last `_` is dropped."""
    said = "".join(
        f' {key.rstrip("_").replace("_", "-")}="{html.escape(value if isinstance(value, str) else pixels(value))}"'
        for key, value in attributes.items()
    )
    return f"<{name}{said}>{content}</{name}>" if content else f"<{name}{said}/>"


def pixels(value):
    return f"{value:.1f}".removesuffix(".0")


def words_at(x, y, words, **attributes):
    return tag("text", html.escape(words), x=x, y=y, **attributes)


class Sheet:
    """Where everything stands in the picture."""

    def __init__(self, picture):
        run = picture.run
        left = [arrow.fate for arrow in picture.arrows if arrow.sending.kind == "reply"]
        left += [mark.text for mark in picture.marks if mark.eid is not None]
        right = [arrow.fate for arrow in picture.arrows if arrow.sending.kind == "request"]
        right += [mark.text for mark in picture.marks if mark.eid is None]
        self.moments = MARGIN + longest([str(step.moment) for step in run.steps[-1:]]) * (LETTER + 1)
        spacing = max(longest(left), 14) * LETTER + 2 * MARGIN
        self.columns = {eid: self.moments + (place + 1) * spacing for place, eid in enumerate(run.requesters)}
        self.last = max(self.columns.values(), default=self.moments + spacing)
        self.device = self.last + GAP
        self.width = self.device + max(longest(right), 8) * LETTER + 2 * MARGIN
        self.heights, self.bottom = row_heights(picture)
        self.height = self.bottom + 2 * MARGIN

    def line_of(self, arrow, owners):
        """Where an arrow begins and ends."""
        sending = arrow.sending
        x, y = self.columns[owners[sending.request]], self.heights[sending.place]
        if sending.kind == "request":
            start, end = (x, y + ROW * sending.slot), (self.device, self.heights[arrow.place])
            broken = self.last + 0.55 * GAP
        else:
            start, end = (self.device, y + 5 + 4 * min(arrow.packet, 5)), (x, self.heights[arrow.place])
            broken = self.last + 0.45 * GAP
        return start, (broken, start[1] + 12) if arrow.is_lost else end


def row_heights(picture):
    """How far down each step stands, and the end of the lines: a tick has a row for each of its sendings."""
    slots = {}
    for arrow in picture.arrows:
        sending = arrow.sending
        slots[sending.place] = max(slots.get(sending.place, 1), sending.slot + 1)
    heights, y = [], TOP
    for step in picture.run.steps:
        heights.append(y)
        y += ROW * slots.get(step.place, 1)
    return heights, y


def longest(texts):
    return max(map(len, texts), default=0)


@dataclass
class Stroke:
    """A straight piece of the picture, how near to it words may stand, and how much it counts where they do."""

    left: tuple
    right: tuple
    room: int
    weight: int = 1

    @property
    def slope(self):
        return (self.right[1] - self.left[1]) / (self.right[0] - self.left[0])

    def height(self, x):
        return self.left[1] + self.slope * (x - self.left[0])

    def clashes(self, others):
        """At how many of seven places this runs into the others, by their weights."""
        count = 0
        for share in range(7):
            x = self.left[0] + share / 6 * (self.right[0] - self.left[0])
            y = self.height(x)
            for other in others:
                if other.left[0] - 4 <= x <= other.right[0] + 4 and abs(other.height(x) - y) < other.room:
                    count += other.weight
        return count


class Labels:
    """Finds a place for the label of each arrow, along it, where it runs into as little as may be."""

    def __init__(self, sheet, arrows, owners):
        self.sheet = sheet
        self.lines = [Stroke(*sorted(sheet.line_of(arrow, owners)), 10) for arrow in arrows]
        self.lost = [lost_words(sheet.line_of(arrow, owners)[1], arrow) for arrow in arrows]
        self.labels = [[] for _ in arrows]
        self.places = [0] * len(arrows)
        for _ in range(PASSES):
            for number, arrow in enumerate(arrows):
                self.places[number], label = self.place(number, arrow)
                self.labels[number] = [label]

    def place(self, number, arrow):
        """Where the middle of a label stands on its arrow, as a distance from the left, and the label's stroke."""
        near = range(max(0, number - NEAR), min(len(self.lines), number + NEAR + 1))
        others = [self.lines[other] for other in near if other != number]
        others += [stroke for other in near for stroke in self.lost[other]]
        others += [stroke for other in near if other != number for stroke in self.labels[other]]
        best, fewest = None, math.inf
        for x in self.candidates(self.lines[number], arrow):
            label = self.words(self.lines[number], arrow, x)
            clashes = label.clashes(others)
            if clashes < fewest:
                best, fewest = (x, label), clashes
            if not clashes:
                break
        return best

    def candidates(self, line, arrow):
        """Places for a label, the best first: near the arrow's end, since several arrows may have one start."""
        is_request = arrow.sending.kind == "request"
        share = (0.27 if is_request else 0.73) if arrow.is_lost else (0.6 if is_request else 0.3)
        wanted = self.sheet.last + share * GAP
        half = len(label_of(arrow)) * LETTER / 2 / math.hypot(1, line.slope)
        low = max(line.left[0], self.sheet.last) + 8 + half
        high = max(low, line.right[0] - 12 - half)
        others = [low + step / 8 * (high - low) for step in range(9)]
        return sorted([min(max(wanted, low), high), *others], key=lambda x: abs(x - wanted))

    def words(self, line, arrow, x):
        """The middle line of a label at this place."""
        stretch = math.hypot(1, line.slope)
        half = len(label_of(arrow)) * LETTER / 2 / stretch
        ends = [(at, line.height(at) - 8 * stretch) for at in (x - half, x + half)]
        return Stroke(*ends, 14, 3)


def lost_words(end, arrow):
    """The word past the cross of a lost packet, and the cross."""
    if not arrow.is_lost:
        return []
    side = 1 if arrow.sending.kind == "request" else -1
    return [Stroke(*sorted([(end[0] - side * 6, end[1]), (end[0] + side * 40, end[1])]), 13, 3)]


def label_of(arrow):
    return shortened(arrow.label, 34 if arrow.is_lost else 54)


def draw_arrows(sheet, arrows, run):
    labels = Labels(sheet, arrows, run.owners)
    for arrow, line, x in zip(arrows, labels.lines, labels.places):
        start, end = sheet.line_of(arrow, run.owners)
        inside = tag("line", class_="shaft", x1=start[0], y1=start[1], x2=end[0], y2=end[1])
        inside += cross(end) if arrow.is_lost else head(start, end)
        turn = f"rotate({pixels(math.degrees(math.atan(line.slope)))})"
        turn = f"translate({pixels(x)} {pixels(line.height(x))}) {turn}"
        inside += words_at(0, -4, label_of(arrow), class_="label mid", transform=turn) + fate_of(arrow, end)
        said = {"class_": " ".join([arrow.sending.kind, *arrow.words]), "data_request": str(arrow.sending.request)}
        said["data_moment"] = str(run.steps[arrow.place].moment)
        if arrow.sending.kind == "reply":
            said["data_packet"] = str(arrow.packet)
        yield tag("g", inside, **said)


def head(start, end):
    """The point of an arrow, in its direction."""
    length = math.hypot(end[0] - start[0], end[1] - start[1])
    x, y = (end[0] - start[0]) / length, (end[1] - start[1]) / length
    back = end[0] - 10 * x, end[1] - 10 * y
    corners = [end, (back[0] - 4 * y, back[1] + 4 * x), (back[0] + 4 * y, back[1] - 4 * x)]
    return tag("path", class_="head", d="M" + "L".join(f"{pixels(a)} {pixels(b)}" for a, b in corners) + "Z")


def cross(end):
    x, y = end
    ends = [f"M{pixels(x - 5)} {pixels(y - s * 5)}L{pixels(x + 5)} {pixels(y + s * 5)}" for s in (1, -1)]
    return tag("path", class_="cross", d="".join(ends))


def fate_of(arrow, end):
    """What became of a packet: at the far side of the line that it came to, or past the cross."""
    if not arrow.fate:
        return ""
    x, y = end
    is_right = arrow.sending.kind == "request"
    away = 10 if arrow.is_lost else 14
    return words_at(x + away if is_right else x - away, y + 4, arrow.fate, class_="fate" if is_right else "fate end")


def shortened(text, most):
    return text if len(text) <= most else text[: most - 2].rstrip() + ".."


def draw_moments(sheet, run):
    yield words_at(sheet.moments, TOP - 24, "ms", class_="moment end")
    last = None
    for step in run.steps:
        if step.moment != last:
            y, last = sheet.heights[step.place], step.moment
            yield tag("line", class_="rule", x1=sheet.moments + 6, y1=y, x2=sheet.device, y2=y)
            yield words_at(sheet.moments, y + 4, str(step.moment), class_="moment end")


def draw_ends(sheet, run):
    ends = [(x, f"requester {eid}") for eid, x in sheet.columns.items()] + [(sheet.device, f"device {run.eid}")]
    for x, name in ends:
        yield tag("line", class_="life", x1=x, y1=TOP - 16, x2=x, y2=sheet.bottom)
        yield words_at(x, TOP - 24, name, class_="name mid")


def draw_mark(sheet, mark, run):
    """A mark that is no restart."""
    y = sheet.heights[mark.place]
    moment = str(run.steps[mark.place].moment)
    if mark.eid is not None:
        words = words_at(sheet.columns[mark.eid] - 14, y + 4, mark.text, class_="end")
    else:
        words = words_at(sheet.device + 14, y + 4, mark.text)
    if mark.kind == "sense":
        words = tag("circle", cx=sheet.device, cy=y, r=5) + words
    return tag("g", words, class_=mark.kind, data_moment=moment)


def draw_bar(sheet, mark, run):
    """The bar of a restart: from it until the device is ready again."""
    x, top, after = sheet.device, sheet.heights[mark.place], bar_end(run, mark.place)
    bottom = sheet.heights[after] - ROW / 2 if after < len(run.steps) else sheet.bottom
    inside = tag("rect", x=x - BAR, y=top, width=2 * BAR, height=bottom - top)
    inside += tag("line", x1=x - 2 * BAR, y1=top, x2=x + 2 * BAR, y2=top)
    inside += words_at(x + 2 * BAR + 6, top + 4, mark.text)
    return tag("g", inside, class_="restart", data_moment=str(run.steps[mark.place].moment))


def draw(picture):
    """The run as SVG, line by line."""
    run, sheet = picture.run, Sheet(picture)
    size = f'width="{pixels(sheet.width)}" height="{pixels(sheet.height)}"'
    yield f'<svg xmlns="http://www.w3.org/2000/svg" {size} viewBox="0 0 {pixels(sheet.width)} {pixels(sheet.height)}">'
    yield tag("title", html.escape(f"A run of device {run.eid}; {run.timely}"))
    yield f"<style>{STYLE}</style>"
    yield tag("rect", width="100%", height="100%", fill="#fff")
    yield from draw_moments(sheet, run)
    yield from (draw_bar(sheet, mark, run) for mark in picture.marks if mark.kind == "restart")
    yield from draw_ends(sheet, run)
    yield from draw_arrows(sheet, picture.arrows, run)
    yield from (draw_mark(sheet, mark, run) for mark in picture.marks if mark.kind != "restart")
    yield words_at(sheet.moments, sheet.bottom + MARGIN + 4, run.timely, class_="timely name")
    yield "</svg>"
