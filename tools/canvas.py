"""A picture of lanes, in which time goes from left to right, as an SVG (tools/picture.py draws it).

A column is a line of a script. At the top are the notes, each at its line, then the lanes, in the
order in which they are asked for, then the lines themselves. At the foot the legend tells what
occurs.
"""
import html

LEFT, STEP, LANE, TOP, LINE, LETTER = 118, 46, 34, 30, 14, 6
GRACE, SECTION, REPORT, COOKIE, CALLBACK, BARRIER, FAULT, FAINT, TEXT = (
    "#4477aa", "#ccbb44", "#228833", "#0077aa", "#aa3377", "#ee6677", "#cc3311", "#bbbbbb",
    "#444444")
LEGEND = {
    "grace": "numbers on a grace period: the number while it runs, and after it",
    "delivery": "square on a grace period: a report arrives",
    "stale": "hollow square there: the report did not count",
    "scan": "upright line to a square: a scan, which counts as a report",
    "epoch": "stroke across the grace periods: the next epoch begins, whose numbers count from 0",
    "online": "grey line: online",
    "section": "broad bar on it: a read section",
    "idle": "dashed line: idle",
    "noted": "circle: note",
    "clear": "hollow circle: note, not awaited",
    "report": "diamond with a number: this report is made",
    "cookie": "square on a cookie: taken, or polled and done",
    "not yet": "hollow square there: polled, not yet done",
    "tend": "t: tend",
    "run": "r: run",
    "ran none": "r none: a run that hands out nothing",
    "visit": "v: visit",
    "marker": "triangle on a barrier: a marker is put, or moves",
    "moved": "triangle on a callback: it moves to processor 0",
    "fault": "cross, red name: refused",
}


def text(x, y, color, words, more=""):
    return f'<text x="{x}" y="{y}"{more} fill="{color}">{html.escape(words, quote=False)}</text>'


class Picture:
    """The lines of a script with their replies, and what was drawn of them so far. Each shape may
    name the row of the legend that tells of it (`key`)."""

    def __init__(self, rows, notes):
        self.rows, self.notes = rows, notes
        self.shapes, self.lanes, self.shown = [], {}, set()
        self.width = LEFT + max(STEP * len(rows) + 60, 420)
        self.note_rows = self.notes_in_rows()
        self.top = TOP + LINE * len(self.note_rows)

    def x(self, place):
        """Where a line is; None is the end of the script."""
        return LEFT + STEP * (len(self.rows) if place is None else place) + STEP // 2 * (
            place is not None)

    def y(self, lane):
        """Where a lane is; lanes are opened in the order in which they are asked for."""
        return self.top + LANE * self.lanes.setdefault(lane, len(self.lanes))

    def notes_in_rows(self):
        """The notes in rows, such that none stands over another one: where the line of each goes
        down, where its text begins, and that."""
        rows = []
        for place, words, is_before in self.notes:
            x = self.x(place) - STEP // 2 * is_before
            long = LETTER * len(words)
            begin = x + 4 if x + long < self.width else max(x - 4 - long, 6)
            row = next((it for it in rows if it[-1][1] + LETTER * len(it[-1][2]) + 9 < begin), None)
            if row is None:
                rows.append(row := [])
            row.append((x, begin, words))
        return rows

    def legend(self):
        """What occurs in the picture, in lines."""
        lines = []
        for words in (LEGEND[it] for it in LEGEND if it in self.shown):
            if lines and LETTER * len(f"{lines[-1]} · {words}") < self.width - 12:
                lines[-1] += f" · {words}"
            else:
                lines.append(words)
        return lines

    def title(self, place):
        number, line, reply = self.rows[place]
        return f"<title>{html.escape(f'line {number}: {line}: {reply}')}</title>"

    def put(self, shape, place, key=None):
        self.shapes.append(f"<g>{self.title(place)}{shape}</g>")
        self.shown |= {key} - {None}

    def bar(self, lane, start, end, color, height=12, words="", key=None):
        """A bar from one line to another one, or to the end of the script."""
        x, top = self.x(start), self.y(lane) - height // 2
        size = f'width="{self.x(end) - x}" height="{height}"'
        shape = f'<rect x="{x}" y="{top}" {size} fill="{color}"/>'
        self.put(shape + (text(x + 4, top - 3, color, words) if words else ""), start, key)

    def mark(self, lane, place, kind, color, filled=True, words="", key=None):
        """A mark at a line: a ring, a diamond, a square, a triangle, a cross or a letter."""
        x, y = self.x(place), self.y(lane)
        paint = f'fill="{color if filled else "white"}" stroke="{color}" stroke-width="2"'
        strokes = f"M{x - 5} {y - 5}L{x + 5} {y + 5}M{x - 5} {y + 5}L{x + 5} {y - 5}"
        shape = {
            "ring": f'<circle cx="{x}" cy="{y}" r="5" {paint}/>',
            "diamond": f'<path d="M{x} {y - 7}L{x + 7} {y}L{x} {y + 7}L{x - 7} {y}Z" {paint}/>',
            "square": f'<rect x="{x - 5}" y="{y - 5}" width="10" height="10" {paint}/>',
            "triangle": f'<path d="M{x - 6} {y - 5}H{x + 6}L{x} {y + 6}Z" {paint}/>',
            "cross": f'<path d="{strokes}" {paint}/>',
            "letter": text(x, y - 6, color, words, ' text-anchor="middle"'),
        }[kind]
        if words and kind != "letter":
            shape += text(x + 8, y + (15 if kind == "diamond" else -10), color, words)
        self.put(shape, place, key)

    def svg(self):
        bottom, legend = self.top + LANE * len(self.lanes) - 6, self.legend()
        longest = max((len(f"{number}: {line}") for number, line, _ in self.rows), default=0)
        width, height = self.width, bottom + 26 + 5 * longest + LINE * len(legend)
        out = [f'<svg xmlns="http://www.w3.org/2000/svg" width="{width}" height="{height}" '
               f'viewBox="0 0 {width} {height}" font-family="sans-serif" font-size="11">',
               f'<rect width="{width}" height="{height}" fill="white"/>']
        for place, (number, line, reply) in enumerate(self.rows):
            x, color = self.x(place), FAULT if reply.startswith("fault") else TEXT
            out += [f'<path d="M{x} {self.top - 16}V{bottom}" stroke="#eeeeee"/>',
                    f'<text transform="translate({x - 3} {bottom + 12}) rotate(55)" fill="{color}">'
                    f"{self.title(place)}{number}: {html.escape(line)}</text>"]
        for at, row in enumerate(self.note_rows):
            for x, begin, words in row:
                out += [f'<path d="M{x} {17 + LINE * at}V{bottom}" stroke="{TEXT}" '
                        'stroke-dasharray="2 4"/>',
                        f'<text x="{begin}" y="{14 + LINE * at}" fill="{TEXT}" font-style="italic">'
                        f"{html.escape(words)}</text>"]
        out += [text(6, self.top + LANE * at + 4, TEXT, lane) for lane, at in self.lanes.items()]
        out += self.shapes
        out += [text(6, height - 8 - LINE * at, TEXT, words)
                for at, words in enumerate(reversed(legend))]
        return "\n".join(out) + "\n</svg>\n"
