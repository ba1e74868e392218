"""Draws a script and its replies as one SVG, for ./explain --svg.

Below the notes, which are comments of the script, come the grace periods and the barriers, a lane
for each processor, and the cookies and the callbacks. What a line did is drawn where its reply says
so; a refused line is a cross. (tools/canvas.py has the lanes and their marks.)
"""
from canvas import (BARRIER, CALLBACK, COOKIE, FAINT, FAULT, GRACE, REPORT, SECTION, Picture,
                    text)

OF_CPUS = "enter exit note quiet online offline queue tend run visit idle wake scan".split()
ANSWERS = "taken last repeat stale".split()


def cpu_of(line, reply):
    """The processor that a line is about, where it is one."""
    name, *words = line.split()
    about = name in OF_CPUS and words and reply.split(":")[0] not in ("fault 1", "fault 21")
    return int(words[0]) if about else None


def pairs(events, begins, ends):
    """The places of each event that begins something and of the next one that ends it, or None."""
    start = None
    for event in events:
        if begins(event) and start is None:
            start = event[0]
        elif ends(event) and start is not None:
            yield start, event[0]
            start = None
    if start is not None:
        yield start, None


def spans(rows, begins, ends):
    """From each line whose reply begins with one text to the next one with another."""
    replies = [(place, reply) for place, (_, _, reply) in enumerate(rows)]
    return pairs(replies, lambda it: it[1].startswith(begins), lambda it: it[1].startswith(ends))


def draw_grace_periods(picture):
    """Each with its numbers, and a stroke where an epoch begins."""
    lane, rows = "grace periods", picture.rows
    y = picture.y(lane)
    for start, end in spans(rows, "begun", "ended"):
        picture.bar(lane, start, end, GRACE, 14, rows[start][2].split()[1], "grace")
        if end is not None:
            picture.put(text(picture.x(end) + 4, y - 10, GRACE, rows[end][2].split()[1]), end)
    for place, (_, _, reply) in enumerate(rows):
        if reply.startswith("epoch "):
            x = picture.x(place)
            stroke = f'<path d="M{x} {y - 12}V{y + 12}" stroke="{GRACE}" stroke-width="2"/>'
            picture.put(stroke + text(x + 4, y + 12, GRACE, reply), place, "epoch")


def draw_sections(picture, cpu):
    """A processor's line while it is online, its sections, and what it did."""
    lane, rows = f"processor {cpu}", picture.rows
    y = picture.y(lane)
    own = [(place, line.split()[0], reply) for place, (_, line, reply) in enumerate(rows)
           if cpu_of(line, reply) == cpu]
    well = [it for it in own if not it[2].startswith("fault")]
    online = [(0, "online", "")] if cpu == 0 and rows else []
    for start, end in pairs(online + well, lambda it: it[1] == "online",
                            lambda it: it[1] == "offline"):
        picture.bar(lane, start, end, FAINT, 2, key="online")
    for start, end in pairs(well, lambda it: it[1] == "idle",
                            lambda it: it[1] in ("wake", "offline")):
        dashes = 'stroke="white" stroke-width="4" stroke-dasharray="4 4"'
        way = f"M{picture.x(start)} {y}H{picture.x(end)}"
        picture.put(f'<path d="{way}" {dashes}/>', start, "idle")
    for start, end in pairs(well, lambda it: it[1:] == ("enter", "depth 1"),
                            lambda it: it[1:] == ("exit", "depth 0")):
        picture.bar(lane, start, end, SECTION, key="section")
    for place, name, reply in own:
        if reply.startswith("fault"):
            picture.mark(lane, place, "cross", FAULT)
        elif name == "note":
            is_awaited = reply.endswith("needed")
            key = "noted" if is_awaited else "clear"
            picture.mark(lane, place, "ring", REPORT, is_awaited, key=key)
        elif name == "quiet":
            picture.mark(lane, place, "diamond", REPORT, words=reply.split()[1], key="report")
        elif name in ("tend", "visit", "run"):
            key = reply if reply == "ran none" else name
            words = "r none" if reply == "ran none" else name[0]
            picture.mark(lane, place, "letter", CALLBACK, words=words, key=key)


def draw_deliveries(picture):
    """A line from each report that is delivered to the grace periods, where it arrives, and from
    each processor that a scan finds idle."""
    made = {}
    for place, (_, line, reply) in enumerate(picture.rows):
        words = reply.split()
        if words[:1] == ["report"]:
            made[words[1]] = (words[3], place)
        elif reply in ANSWERS:
            name, number = line.split()[:2]
            cpu, start = (number, place) if name == "scan" else made[str(int(number))]
            lane, counts = "grace periods", reply in ("taken", "last")
            way = (f"M{picture.x(start)} {picture.y(f'processor {int(cpu)}')}"
                   f"L{picture.x(place)} {picture.y(lane)}")
            dashes = "" if counts else ' stroke-dasharray="3 3"'
            picture.put(f'<path d="{way}" stroke="{REPORT}" fill="none"{dashes}/>', place)
            key = "scan" if name == "scan" else "delivery" if counts else "stale"
            picture.mark(lane, place, "square", REPORT, counts, "" if counts else reply, key)


def draw_cookies(picture):
    """Each cookie from its first taking on, with its polls."""
    polls = {}
    for place, (_, line, reply) in enumerate(picture.rows):
        if reply.startswith("cookie "):
            polls.setdefault(reply, []).append((place, "taken"))
        elif line.split()[0] == "poll" and reply in ("done", "not yet"):
            number, epoch = (*map(int, line.split()[1:]), 0)[:2]
            cookie = f"cookie {number}" + (f" epoch {epoch}" if epoch else "")
            if cookie in polls:
                polls[cookie].append((place, reply))
    for lane, seen in polls.items():
        picture.bar(lane, seen[0][0], seen[-1][0], COOKIE, 4)
        for place, reply in seen:
            key = "not yet" if reply == "not yet" else "cookie"
            picture.mark(lane, place, "square", COOKIE, reply != "not yet", reply, key)


class Lists:
    """Which callbacks wait on which processor, and behind which of them a marker stands."""

    def __init__(self, picture):
        self.picture = picture
        self.waiting = []    # the processor, value, place of queueing and moves of each callback
        self.done = []
        self.markers = []    # the processor of each marker, and the callbacks before it
        self.unvisited = None    # those whose processors a running barrier has not visited

    def of(self, cpu):
        return [it for it in self.waiting if it["cpu"] == cpu]

    def mark(self, cpu, place, words):
        self.picture.mark("barriers", place, "triangle", BARRIER, words=words, key="marker")
        self.markers.append({"cpu": cpu, "before": self.of(cpu)})

    def move(self, cpu, place):
        """What a departure does: an unvisited list gets its marker first."""
        moved = self.of(cpu)
        kept = [it for it in self.markers if it["cpu"] == cpu
                and any(call in moved for call in it["before"])]
        if moved and self.unvisited is not None and cpu not in self.unvisited:
            self.unvisited.add(cpu)
            self.mark(cpu, place, "to 0")
        elif kept:
            self.picture.mark("barriers", place, "triangle", BARRIER, words="to 0", key="marker")
        for call in moved:
            call["cpu"] = 0
            call["moves"].append(place)

    def hear(self, place, line, reply):
        """What a line did to the lists, by its reply."""
        words = [int(it) for it in line.split()[1:] if it.isdigit()]
        if reply.startswith("queued "):
            self.waiting.append({"cpu": words[0], "value": words[1], "place": place, "moves": [],
                                 "name": line.split()[2]})
        elif reply.startswith("ran ") and reply != "ran none":
            for value in map(int, reply.split()[1:]):
                found = next(it for it in self.of(words[0]) if it["value"] == value)
                self.waiting.remove(found)
                self.done.append((found, place))
        elif reply.startswith("offline moved"):
            self.move(words[0], place)
        elif reply in ("barrier begun", "barrier done"):
            self.unvisited = set() if reply == "barrier begun" else None
        elif reply.startswith("barrier waits"):
            x, y = self.picture.x(place), self.picture.y("barriers") + 15
            self.picture.put(text(x - 14, y, BARRIER, reply.removeprefix("barrier ")), place)
        elif line.split()[0] == "visit" and reply in ("marked", "empty"):
            self.unvisited.add(words[0])
            if reply == "marked":
                self.mark(words[0], place, f"on {words[0]}")


def draw_callbacks(picture):
    """Each callback from its queueing to its handing out, with its moves, and the markers."""
    lists = Lists(picture)
    for place, (_, line, reply) in enumerate(picture.rows):
        if not reply.startswith("fault") and reply != "-":
            lists.hear(place, line, reply)
    calls = lists.done + [(it, None) for it in lists.waiting]
    for call, end in sorted(calls, key=lambda it: it[0]["place"]):
        lane = f"callback {call['name']}"
        picture.bar(lane, call["place"], end, CALLBACK, 6, "queued")
        for place in call["moves"]:
            picture.mark(lane, place, "triangle", CALLBACK, words="to processor 0", key="moved")
        if end is not None:
            picture.mark(lane, end, "square", CALLBACK, words="handed out")


def drawn(rows, notes=()):
    """The picture of rows of a number, a line and its reply; of the processors those that a line is
    about, and processor 0. A note is a row's place, a text, and whether it stands before the row."""
    picture = Picture(rows, notes)
    draw_grace_periods(picture)
    for start, end in spans(rows, "barrier begun", "barrier done"):
        picture.bar("barriers", start, end, BARRIER, 8)
    for cpu in sorted({0, *(cpu_of(line, reply) or 0 for _, line, reply in rows)}):
        draw_sections(picture, cpu)
    draw_deliveries(picture)
    draw_cookies(picture)
    draw_callbacks(picture)
    for place, (_, line, reply) in enumerate(rows):
        if reply.startswith("fault"):
            picture.shown.add("fault")
            # (one that belongs to no processor is at the foot)
            if cpu_of(line, reply) is None:
                picture.mark("refused", place, "cross", FAULT)
    return picture.svg()
