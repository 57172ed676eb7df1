"""For contrib/ladder: the picture of a run as text."""
import textwrap

from ladder_run import Refused
from ladder_svg import longest, shortened

# Columns of text.
WIDTH = 100
LEAST_GAP = 34
LEAST_NOTE = 24


class Page:
    """Where everything stands in the text: columns, counted from 0."""

    def __init__(self, picture):
        run = picture.run
        self.moments = max(4, longest([str(step.moment) for step in run.steps[-1:]]))
        first, count = self.moments + 2, len(run.requesters)
        most = WIDTH - LEAST_NOTE - 3
        spacing = 6 if first + 6 * (count - 1) + LEAST_GAP <= most else 4
        self.last = first + spacing * max(count - 1, 0)
        if self.last + LEAST_GAP > most:
            raise Refused(f"{count} requesters do not fit in {WIDTH} columns")
        self.columns = {eid: first + spacing * place for place, eid in enumerate(run.requesters)}
        wanted = max(map(wanted_gap, picture.arrows), default=0)
        self.device = min(max(first + 44, self.last + max(LEAST_GAP, wanted)), most)
        self.note = self.device + 3
        self.gap = self.device - self.last - 1

    def bars(self, is_busy):
        """A row with the lines alone."""
        row = [" "] * WIDTH
        for column in self.columns.values():
            row[column] = "|"
        put(row, self.edge(is_busy), "|||" if is_busy else "|")
        return row

    def edge(self, is_busy):
        """The first column of the device's line, which is a bar of three while the device is busy."""
        return self.device - 1 if is_busy else self.device


def wanted_gap(arrow):
    """How far apart the lines are where all of an arrow's words stand on it."""
    return len(arrow.label) + (20 if arrow.is_lost or arrow.sending.kind == "request" else len(arrow.fate) + 14)


def put(row, column, text):
    row[column : column + len(text)] = text


def finished(row):
    return "".join(row).rstrip()


def text_head(page, run):
    """The names of the ends."""
    if len(page.columns) > 1:
        rows = [{min(page.columns.values()) + 1: "requesters", page.device: "device"}]
        rows.append({column: str(eid) for eid, column in page.columns.items()} | {page.device: str(run.eid)})
    else:
        rows = [{column: f"requester {eid}" for eid, column in page.columns.items()}]
        rows[0][page.device] = f"device {run.eid}"
    for texts in rows:
        row = [" "] * WIDTH
        for column, text in texts.items():
            put(row, column - len(text) // 2, text)
        yield finished(row)


def text_arrow(page, arrow, row, left, right):
    """Draws an arrow into a row, between the lines at these columns; returned is whether its drop had room."""
    is_dashed = arrow.sending.kind == "reply" and "busy" in arrow.words
    body = list(((" -" if is_dashed else "-") * WIDTH)[: right - left - 1])
    label = f" {shortened(arrow.label, page.gap - (18 if arrow.is_lost else 10))} "
    over = page.last - left
    if arrow.sending.kind == "reply":
        has_room = reply_body(body, over, page.gap, label, arrow)
    else:
        has_room = True
        request_body(body, over, page.gap, label, arrow)
    put(row, left + 1, body)
    return has_room


def request_body(body, over, gap, label, arrow):
    """The signs of a request's arrow, of which the first `over` pass the lines of other requesters."""
    body[-1] = ">"
    put(body, over + 4, label)
    if arrow.is_lost:
        end = max(over + 4 + len(label) + 2, over + gap // 2)
        body[end:] = "x (lost)".ljust(len(body) - end)


def reply_body(body, over, gap, label, arrow):
    """The signs of an answer's arrow. A drop stands at its point; returned is whether it had room there."""
    body[0] = "<"
    start = len(body) - 5 - len(label)
    if arrow.is_lost:
        end = min(start - 3, over + gap // 2)
        body[: end + 1] = "(lost) x".rjust(end + 1)
    drop = f" {arrow.fate} " if arrow.fate and not arrow.is_lost else ""
    has_room = over + 2 + len(drop) < start
    put(body, start, label)
    if drop and has_room:
        put(body, over + 2, drop)
    return has_room


def text_note(arrow, run, has_room):
    """What stands at the right of an arrow."""
    if arrow.is_lost:
        return ""
    notes = [arrow.fate] if arrow.sending.kind == "request" or not has_room else []
    if arrow.sending.kind == "reply" and "copy" in arrow.words:
        notes.append("kept answer")
    sent = run.steps[arrow.sending.place].moment
    if sent != run.steps[arrow.place].moment:
        notes.append(f"sent at {sent}")
    return ", ".join(notes)


def arrow_rows(page, arrow, run, is_busy):
    left, right = page.columns[run.owners[arrow.sending.request]], page.edge(is_busy)
    first = page.bars(is_busy)
    has_room = text_arrow(page, arrow, first, left, right)
    if arrow.is_lost:
        for column in page.columns.values():
            first[column] = "|"
    return with_note(page, first, text_note(arrow, run, has_room), is_busy)


def mark_rows(page, mark, run, is_busy):
    if mark.eid is None:
        text = f"<- {mark.text}" if mark.kind == "sense" else mark.text
        return with_note(page, page.bars(is_busy), text, is_busy)
    name = f"requester {mark.eid}: " if len(run.requesters) > 1 else ""
    rows = []
    for part in textwrap.wrap(name + mark.text, page.gap - 4):
        rows.append(page.bars(is_busy))
        put(rows[-1], page.last + 3, part)
    return rows


def with_note(page, first, note, is_busy):
    """The rows of a note, of which the first is given."""
    parts = textwrap.wrap(note, WIDTH - page.note) or [""]
    rows = [first] + [page.bars(is_busy) for _ in parts[1:]]
    for row, part in zip(rows, parts):
        put(row, page.note, part)
    return rows


def text_of(picture):
    """The run as text, line by line."""
    run, page = picture.run, Page(picture)
    items = [(arrow.place, arrow_rows, arrow) for arrow in picture.arrows]
    items += [(mark.place, mark_rows, mark) for mark in picture.marks]
    items.sort(key=lambda item: item[0])
    yield from text_head(page, run)
    yield finished(page.bars(False))
    shown, ready = None, 0
    for place, rows_of, item in items:
        moment = run.steps[place].moment
        if run.steps[place].kind == "restart":
            ready = moment + run.keep
        for row in rows_of(page, item, run, moment < ready):
            if moment != shown:
                put(row, 0, str(moment).rjust(page.moments))
                shown = moment
            yield finished(row)
    yield finished(page.bars(False))
    yield run.timely
