"""A time line of grace periods, as an SVG: a lane for each CPU, and in it a bar from each start to
the CPU's report. The colours and the letters are those of docs/pictures."""
WIDE, LANE, LEFT, TOP = 780, 26, 120, 34
BLUE, YELLOW, GREEN, RED, LIGHT = "#4477aa", "#ccbb44", "#228833", "#ee6677", "#99ccaa"
GREY, FAINT, DARK = "#bbbbbb", "#eeeeee", "#444444"
# How a CPU was heard of, by the beginning of the words: a colour, and what the legend says.
KINDS = {"its own": (GREEN, "its own report"), "scan": (LIGHT, "idle: found by force_qs_rnp"),
         "a report by": (GREY, "a report by another CPU"),
         "silently": (RED, "went offline"), "went off": (RED, "went offline"),
         "the last": (YELLOW, "a preempted reader")}
MOST_NUMBERS = 12  # of grace periods that have room beside one another


class Picture:
    """The grace periods that ended, on so many CPUs."""

    def __init__(self, periods, cpus):
        self.periods, self.cpus, self.rows, self.kinds = periods, cpus, [], {}
        self.first = self.time(periods[0].start) if periods else 0
        self.last = self.time(periods[-1].end) if periods else 0
        self.scale = WIDE / (self.last - self.first or 1)
        self.bottom = TOP + (cpus + 1) * LANE
        self.has_times = bool(periods) and "." in periods[0].start.time

    @staticmethod
    def time(event):
        return float(event.time)

    def x(self, event):
        return LEFT + (self.time(event) - self.first) * self.scale

    def took(self, period, event):
        took = self.time(event) - self.time(period.start)
        return f"{took * 1000:.3f} ms" if self.has_times else f"{took:.0f} events"

    def text(self, x, y, words, colour=DARK):
        self.rows.append(f'<text x="{x:.1f}" y="{y}" fill="{colour}">{words}</text>')

    def box(self, x, y, wide, high, colour, title="", edge=""):
        self.rows.append(f'<rect x="{x:.1f}" y="{y}" width="{wide:.1f}" height="{high}" '
                         f'fill="{colour}"{edge}><title>{title}</title></rect>')

    def axis(self):
        """The times since the first start, as faint lines."""
        whole = self.last - self.first
        step = next((it * 10.0 ** power for power in range(-6, 12) for it in (1, 2, 5)
                     if whole / (it * 10.0 ** power) <= 10), 1)
        for tick in range(int(whole / step) + 1):
            x = LEFT + tick * step * self.scale
            self.rows.append(f'<path d="M{x:.1f} {TOP - 6}V{self.bottom + 6}" stroke="{FAINT}"/>')
            if self.has_times:
                self.text(x - 3, self.bottom + 18, f"{tick * step * 1000:g} ms")

    def lanes(self):
        """A name for each lane, and a line for each CPU that is awaited at some time."""
        awaited = {cpu for period in self.periods for cpu in period.awaited()}
        for lane, name in enumerate(["grace periods", *(f"CPU {it}" for it in range(self.cpus))]):
            y = TOP + lane * LANE + LANE // 2
            self.text(6, y + 4, name)
            if lane - 1 in awaited:
                self.rows.append(f'<path d="M{LEFT} {y}H{LEFT + WIDE}" stroke="{GREY}"/>')

    def period(self, period):
        start, end = self.x(period.start), self.x(period.end)
        took = self.took(period, period.end)
        self.box(start, TOP + 6, max(end - start, 1), LANE - 12, BLUE,
                 f"grace period {period.number}: {took}")
        if len(self.periods) <= MOST_NUMBERS:
            self.text(start, TOP - 2, f"{period.number}", BLUE)
        for it in period.heard:
            self.bar(period, it, it is period.heard[-1])

    def bar(self, period, heard, is_last):
        cpu, event, how = heard
        cpu = cpu if cpu < self.cpus else event.cpu  # (a reader stands for no CPU of its own)
        colour, kind = next((it for key, it in KINDS.items() if how.startswith(key)),
                            (GREY, "otherwise"))
        self.kinds[kind] = colour
        y, start, end = TOP + (cpu + 1) * LANE + 6, self.x(period.start), self.x(event)
        title = (f"grace period {period.number}: CPU {cpu}, {how}, {self.took(period, event)} "
                 "after the start")
        self.box(start, y, max(end - start, 1), LANE - 12, colour, title,
                 ' stroke="black" stroke-width="1.5"' if is_last else "")
        if is_last:
            self.rows.append(f'<path d="M{end:.1f} {y}V{TOP + LANE - 6}" stroke="black" '
                             'stroke-dasharray="2 3"/>')

    def legend(self):
        x, y = LEFT, self.bottom + 34
        for kind, colour in self.kinds.items():
            self.box(x, y, 10, 10, colour)
            self.text(x + 15, y + 9, kind)
            x += 45 + 6 * len(kind)
        self.text(6, y + 28, "number: the grace period, as gp_seq has it while it runs · bar: from "
                  "the start to the CPU's report · black edge: the last report · "
                  "no line: not awaited")

    def drawn(self):
        self.axis()
        self.lanes()
        for period in self.periods:
            self.period(period)
        self.legend()
        wide, high = LEFT + WIDE + 60, self.bottom + 70
        return "\n".join([
            f'<svg xmlns="http://www.w3.org/2000/svg" width="{wide}" height="{high}" '
            f'viewBox="0 0 {wide} {high}" font-family="sans-serif" font-size="11">',
            f'<rect width="{wide}" height="{high}" fill="white"/>', *self.rows, "</svg>", ""])


def picture(periods, cpus):
    return Picture([it for it in periods if it.end], cpus).drawn()
