"""A run as a picture: a lane a session, time downwards, a box a piece of a transaction. One HTML file, or the drawing alone as SVG."""

import html
import os
import textwrap
from collections import namedtuple

from .history import COMMITTED, ROLLED_BACK
from .names import count
from .show import Story

# in points: the gap between two lanes, a line of text, a character, and where the first box begins
GAP, LINE, CHAR, MARGIN, HEAD, TOP = 44, 15, 6.95, 20, 24, 88
WIDTHS = ((3, 296), (4, 262), (1000, 224))
# so many sessions have lanes of their own and so many transactions are told whole; of more those that matter
MOST_LANES, MOST_WHOLE = 6, 16
MOST_LINES, MOST_PARTS = 14, 4
# so many lines of a list stand on top of the page before it unfolds
MOST_ITEMS = 12

SVG_STYLE = """
svg { font: 11.5px "DejaVu Sans Mono", Menlo, Consolas, monospace; background: #fff; }
.head, .legend { font-family: "DejaVu Sans", system-ui, sans-serif; fill: #1c2430; }
.head { font-size: 13px; font-weight: bold; }
.lane { stroke: #e3e7ec; } .box { fill: #f6f8fa; stroke: #8b97a6; } .start { fill: #eef1f5; stroke: #c2cad3; }
.folded { fill: #fff; stroke: #c2cad3; }
.rolled { stroke-dasharray: 4 3; fill: #fff; } .bad { stroke: #b3141d; stroke-width: 1.5; } .title { font-weight: bold; fill: #1c2430; }
.read { fill: #384250; } .write { fill: #0a5a8a; } .stale { fill: #b3141d; font-weight: bold; } .quiet { fill: #6b7684; }
.goes { stroke: #8b97a6; stroke-dasharray: 2 3; } .from { stroke: #b4bdc8; fill: none; } .took { stroke: #b3141d; fill: none; stroke-width: 1.7; }
.missed { stroke: #d9820a; fill: none; stroke-width: 1.7; stroke-dasharray: 5 4; }
"""
PAGE_STYLE = """
body { font: 14px/1.45 "DejaVu Sans", system-ui, sans-serif; margin: 24px; color: #1c2430; background: #fff; }
h1 { font-size: 19px; margin: 0 0 4px; } h2 { font-size: 16px; margin: 18px 0 4px; } p { margin: 2px 0 10px; max-width: 70em; }
ul { margin: 4px 0 14px; padding-left: 20px; max-width: 90em; }
li { margin: 3px 0; } li.stale { color: #b3141d; font-weight: normal; } li.once { color: #8a5200; }
.frame { overflow-x: auto; border-top: 1px solid #d5dae1; margin-top: 6px; } #g:not(:checked) ~ .frame .from { display: none; }
pre { font: 12px/1.4 "DejaVu Sans Mono", Menlo, Consolas, monospace; background: #f6f8fa; padding: 12px; }
pre { white-space: pre-wrap; overflow-wrap: anywhere; }
"""
COLORS = (("from", "#b4bdc8"), ("took", "#b3141d"), ("missed", "#d9820a"))
LEGEND = (("took", "what a stale read took"), ("missed", "the newest write, which it missed"), ("from", "reads from another session"))

# A line of a box. read: of the first line of a stale read.
Row = namedtuple("Row", "kind text read")
# What is drawn as one box: its lane, its transactions, and of a box that isn't folded its piece.
Box = namedtuple("Box", "lane transactions piece")


def rounded(points):
    """A path along these points, with round corners."""
    path = ["M%d %d" % points[0]]
    for before, corner, after in zip(points, points[1:], points[2:]):
        near, far = toward(corner, before), toward(corner, after)
        path.append("L%d %d Q%d %d %d %d" % (near + corner + far))
    return " ".join(path + ["L%d %d" % points[-1]])


def toward(corner, other, most=7):
    """The place near the corner on the way to the other."""
    step = [min(most, abs(there - here) // 2) * (1 if there > here else -1) for here, there in zip(corner, other)]
    return corner[0] + step[0], corner[1] + step[1]


def text_of(words):
    return html.escape(words, quote=True)


class Drawing:
    def __init__(self, story):
        self.story, self.history, self.names = story, story.history, story.names
        sessions = sorted({transaction.session for transaction in self.history.transactions[1:]})
        matters = self.transactions_that_matter()
        self.whole = matters if len(self.history.transactions) - 1 > MOST_WHOLE else set(range(1, len(self.history.transactions)))
        own = {self.history.transactions[number].session for number in matters} if len(sessions) > MOST_LANES else set(sessions)
        self.heads = [self.names.session(session) for session in sessions if session in own]
        self.lanes = {session: lane for lane, session in enumerate(session for session in sessions if session in own)}
        others = [session for session in sessions if session not in own]
        for session in others:
            self.lanes[session] = len(self.heads)
        if others:
            self.heads.append("the other session" if len(others) == 1 else "the %d other sessions" % len(others))
        self.others = set(others)
        self.wide = next(width for lanes, width in WIDTHS if len(self.heads) <= lanes)
        self.chars = int((self.wide - 16) / CHAR)
        self.shapes, self.arrows, self.under = [], [], []
        # of a transaction where its last box ends, and where that has its side for arrows
        self.bottoms, self.exits = {}, {}
        self.gutters = {}
        self.y = TOP
        self.draw()

    def transactions_that_matter(self):
        """Those with a stale read, those from which it took or should have, and where no read is stale those that ran at once."""
        found = set()
        for read in self.story.stale.values():
            found |= {read.transaction, read.source, read.newest}
        if not found:
            for pair in self.story.pairs:
                found |= {pair.first, pair.second}
        return found - {0}

    def boxes(self):
        """The boxes from above to below; pieces that don't matter, one after another in one lane, are one."""
        found = []
        for piece in self.story.pieces:
            lane = self.lanes[self.history.transactions[piece.transaction].session]
            if piece.transaction in self.whole:
                found.append(Box(lane, [piece.transaction], piece))
            elif found and found[-1].piece is None and found[-1].lane == lane:
                if piece.transaction not in found[-1].transactions:
                    found[-1].transactions.append(piece.transaction)
            else:
                found.append(Box(lane, [piece.transaction], None))
        return found

    def left(self, lane):
        return MARGIN + lane * (self.wide + GAP)

    def rows(self, piece):
        """The lines of a box, cut to its width."""
        found = []
        for line in self.story.lines(piece):
            text = line.text
            if line.read:
                read = line.read
                text = "STALE: reads %s, of %s" % (self.names.found(read.cell, read.value), self.names.source(read.source))
            parts = textwrap.wrap(text, self.chars, subsequent_indent="  ") or [""]
            if not line.read and len(parts) > MOST_PARTS + 1:
                parts = parts[:MOST_PARTS] + ["  .. and %s" % count(len(parts) - MOST_PARTS, "more line")]
            found += [Row(line.kind, part, line.read if place == 0 else None) for place, part in enumerate(parts)]
            if line.read:
                text = "missed: %s, of %s" % (self.story.missed(line.read), self.names.source(line.read.newest))
                found += [Row("stale", "  " + part, None) for part in textwrap.wrap(text, self.chars - 2)]
        if len(found) > MOST_LINES and not any(row.kind == "stale" for row in found):
            found = found[: MOST_LINES - 1] + [Row("quiet", ".. and %s" % count(len(found) - MOST_LINES + 1, "more line"), None)]
        return found

    def draw(self):
        for box in self.boxes():
            if box.piece is None:
                self.folded(box)
            else:
                self.piece(box)
        self.bottom = self.y

    def folded(self, box):
        x, numbers = self.left(box.lane), box.transactions
        title = "T%d" % numbers[0] if len(numbers) == 1 else "T%d to T%d: %s" % (min(numbers), max(numbers), count(len(numbers), "transaction"))
        self.rectangle("folded", x, self.y, 20)
        self.text("quiet", x + 8, self.y + 14, title)
        for number in numbers:
            self.exits[number] = (box.lane, self.y + 10)
        self.y += 30

    def piece(self, box):
        piece, x, y = box.piece, self.left(box.lane), self.y
        transaction = self.history.transactions[piece.transaction]
        rows = self.rows(piece)
        height = 24 + LINE * len(rows) + 4
        if not piece.is_first:
            self.shapes.append('<line class="goes" x1="%d" y1="%d" x2="%d" y2="%d"/>' % (x + 30, self.bottoms[piece.transaction], x + 30, y))
        kind = "box" + (" rolled" if transaction.state == ROLLED_BACK else "") + (" bad" if any(row.kind == "stale" for row in rows) else "")
        self.rectangle(kind, x, y, height)
        self.text("title", x + 8, y + 16, self.title(piece, transaction, not rows))
        for place, row in enumerate(rows):
            at = y + 33 + LINE * place
            self.text(row.kind, x + 8, at, row.text)
            if row.read:
                self.stale_arrows(box.lane, at - 4, row.read)
        self.grey_arrows(box.lane, y + 12, piece)
        self.bottoms[piece.transaction] = y + height
        self.exits[piece.transaction] = (box.lane, y + height - 10)
        self.y += height + 12

    def title(self, piece, transaction, is_empty):
        text = "T%d" % piece.transaction
        if transaction.session in self.others:
            text += ", " + self.names.session(transaction.session)
        if not piece.is_first:
            text += " goes on"
        elif is_empty and not piece.is_last:
            text += " begins"
        if transaction.level != self.history.log.level:
            text += " at " + transaction.level
        if piece.is_last:
            text += (" and" if not piece.is_first else "") + (" commits" if transaction.state == COMMITTED else " rolls back")
        return text

    def rectangle(self, kind, x, y, height):
        self.shapes.append('<rect class="%s" x="%d" y="%d" width="%d" height="%d" rx="5"/>' % (kind, x, y, self.wide, height))

    def text(self, kind, x, y, words):
        # blanks at the beginning would be lost
        indent = len(words) - len(words.lstrip(" "))
        self.shapes.append('<text class="%s" x="%d" y="%d">%s</text>' % (kind, x + indent * CHAR, y, text_of(words.lstrip(" "))))

    def stale_arrows(self, lane, y, read):
        took = "%s, of %s" % (self.names.found(read.cell, read.value), self.names.transaction(read.source))
        missed = "%s, of %s" % (self.story.missed(read), self.names.transaction(read.newest))
        self.arrows.append(self.arrow("took", read.source, lane, y, "takes: " + took))
        self.arrows.append(self.arrow("missed", read.newest, lane, y + LINE, "misses: " + missed))

    def grey_arrows(self, lane, y, piece):
        mine = self.history.transactions[piece.transaction]
        sources = {}
        for number in piece.events:
            read = self.story.reads.get(number)
            if read and read.source and number not in self.story.stale and self.history.transactions[read.source].session != mine.session:
                sources[read.source] = True
        for source in sources:
            self.under.append(self.arrow("from", source, lane, y, "T%d reads what T%d wrote" % (mine.number, source)))

    def gutter(self, lane):
        """A place of its own in the gap right of the lane."""
        used = self.gutters[lane] = self.gutters.get(lane, -1) + 1
        return self.left(lane) + self.wide + 12 + 6 * (used % 4)

    def arrow(self, kind, source, lane, y, tip):
        """From a transaction, or the state before all, to a place at a side of the box that is drawn; round the boxes between them."""
        left, right = self.left(lane), self.left(lane) + self.wide
        if source == 0:
            at = self.gutter(lane)
            points = [(at, HEAD + 46), (at, y), (right, y)]
        else:
            from_lane, from_y = self.exits[source]
            if from_lane == lane:
                at = self.gutter(lane)
                points = [(right, from_y), (at, from_y), (at, y), (right, y)]
            elif from_lane < lane:
                points = [(self.left(from_lane) + self.wide, from_y)] + self.way(from_lane, lane - 1, from_y, y) + [(left, y)]
            else:
                points = [(self.left(from_lane), from_y)] + self.way(from_lane - 1, lane, from_y, y) + [(right, y)]
        return '<path class="%s" marker-end="url(#%s)" d="%s"><title>%s</title></path>' % (kind, kind, rounded(points), text_of(tip))

    def way(self, first, last, from_y, y):
        """From the gap right of the first lane to that right of the last one. Above the box that is drawn all lanes are free."""
        at = self.gutter(first)
        if first == last:
            return [(at, from_y), (at, y)]
        to, free = self.gutter(last), self.y - 6
        return [(at, from_y), (at, free), (to, free), (to, y)]

    def svg(self):
        width = 2 * MARGIN + len(self.heads) * (self.wide + GAP) - GAP + 24
        found = []
        right = self.left(len(self.heads) - 1) + self.wide if self.heads else MARGIN
        found.append('<rect class="start" x="%d" y="%d" width="%d" height="22" rx="5"/>' % (MARGIN, HEAD + 24, max(right, 300) - MARGIN + 24))
        found.append('<text class="title" x="%d" y="%d">%s</text>' % (MARGIN + 8, HEAD + 39, text_of(self.start_words())))
        for lane, head in enumerate(self.heads):
            middle = self.left(lane) + self.wide // 2
            found.append('<text class="head" x="%d" y="%d">%s</text>' % (self.left(lane), HEAD, text_of(head)))
            found.append('<line class="lane" x1="%d" y1="%d" x2="%d" y2="%d"/>' % (middle, HEAD + 46, middle, self.bottom))
        legend, x = [], MARGIN
        for kind, words in LEGEND:
            if any('class="%s"' % kind in arrow for arrow in self.under + self.arrows):
                legend.append('<path class="%s" d="M%d %d L%d %d"/>' % (kind, x, self.bottom + 16, x + 28, self.bottom + 16))
                legend.append('<text class="legend" x="%d" y="%d">%s</text>' % (x + 34, self.bottom + 20, text_of(words)))
                x += 60 + int(len(words) * 7.2)
        width = max(width, x, 320)
        head = '<marker id="%s" viewBox="0 0 8 8" refX="7" refY="4" markerWidth="7" markerHeight="7" orient="auto">'
        markers = "".join((head + '<path d="M0 0 L8 4 L0 8 z" fill="%s"/></marker>') % pair for pair in COLORS)
        ground = ['<rect width="100%" height="100%" fill="#fff"/>']
        shapes = "\n".join(ground + found + self.under + self.shapes + self.arrows + legend)
        size = (width, self.bottom + 34)
        open_tag = '<svg xmlns="http://www.w3.org/2000/svg" width="%d" height="%d" viewBox="0 0 %d %d">' % (size + size)
        return "%s<style>%s</style><defs>%s</defs>%s</svg>\n" % (open_tag, SVG_STYLE, markers, shapes)

    def start_words(self):
        rows = sum(cell.column is None for cell in self.history.log.initial)
        return "the state before all" + (", with %s of the setup" % count(rows, "row") if rows else "")


def listed(kind, lines):
    """A list, of which what is beyond the first lines unfolds."""
    items = ['<li class="%s">%s</li>' % (kind, text_of(line)) for line in lines]
    found = "<ul>%s</ul>" % "".join(items[:MOST_ITEMS]) if items else ""
    if len(items) > MOST_ITEMS:
        found += "<details><summary>%s</summary><ul>%s</ul></details>" % (text_of("%d more" % (len(items) - MOST_ITEMS)), "".join(items[MOST_ITEMS:]))
    return found


def page(title, told, story):
    """The whole page, which is well-formed XML too."""
    said = "<p><b>%s</b></p>" % text_of(told) if told else ""
    items = listed("stale", story.stale_lines()) + listed("once", [story.pair_line(pair) for pair in story.pairs])
    wrong = "".join("<p>%s</p>" % text_of(line) for line in story.wrong_lines())
    alone = "" if story.stale else "<p>No read is stale: what transactions did at once alone makes this history.</p>"
    return "".join(
        (
            '<!DOCTYPE html>\n<html lang="en"><head><meta charset="utf-8"/><title>%s</title><style>%s</style></head>' % (text_of(title), PAGE_STYLE),
            "<body><h1>%s</h1>%s<p>%s</p>%s%s" % (text_of(title), said, text_of(story.counts()), wrong, alone),
            items,
            '<p>Time runs downwards, one box after another. Dotted lines join the pieces of a transaction; dashed edges are of one that rolled back.</p>',
            '<input id="g" type="checkbox" checked="checked"/><label for="g"> show what is read from other sessions</label>',
            '<div class="frame">%s</div><h2>The same in words</h2><pre>%s</pre></body></html>\n' % (Drawing(story).svg(), text_of(story.text())),
        )
    )


def write(case, out=None):
    """Writes the page of a case, and gives its path: in the case's folder, or beside a log."""
    if out is None:
        out = os.path.join(case.path, "page.html") if case.is_folder else case.path + ".html"
    story = Story(case.history)
    text = Drawing(story).svg() if out.endswith(".svg") else page(case.name(), case.told, story)
    try:
        with open(out, "w", encoding="utf-8") as file:
            file.write(text)
    except OSError as fault:
        # a full disk doesn't say whose
        raise OSError(fault.errno, fault.strerror, out) from None
    return out
