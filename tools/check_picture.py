"""Holds a picture, as show/picture.awk prints it, to the table and the listing that it was made from.

check(svg, table, listing, rooms, budget) gives back what is wrong with it, in words, and nothing where it is in order. It reads
the table and the listing for itself and measures the elements of the picture, which it tells apart by their classes.
broken_ones_are_found(the same, made) breaks the picture in many ways, one at a time, and gives back the breaks that check lets
pass; the set made gets the names of those that this picture has room for, of all that BREAKS names.

svg is text, table bytes; listing and rooms are text as the program prints it, rooms that of --rooms; budget is the one named
beside the table, as text, or empty."""
import re
import xml.etree.ElementTree as tree

SVG = "{http://www.w3.org/2000/svg}"
PREFIX = "cuddlelamb-"
LETTER = 0.6  # how wide a letter is, in sizes
ABOVE, BELOW = 0.8, 0.25  # how far letters go above and below the line that they stand on, in sizes
NEAR = 0.101  # lengths are given to a tenth of a unit
TOUCH = 0.25  # what overlaps by less only touches: lengths that are sums of such
HAIRLINE = 2  # what would be narrower may be drawn up to that wide
STRETCH = 1.5  # how many times the plan's length the time line may have
MOST_TICKS = 6
A4 = 1.41  # how many times its width the height of a page is
MOST_BUDGET = 10**15
MEANT = ("bar", "mark", "beyond", "line", "head", "budget", "spent", "top")  # shapes that no text may cover
FORBIDDEN = ("script", "style", "foreignObject", "image", "use", "a", "set", "animate")

tree.register_namespace("", SVG[1:-1])


# ---- what the picture must show

class Plan:
    """a table and its listing; numbers are kept as text, as the picture has them"""

    def __init__(self, table, listing, rooms, budget):
        entries = [line.split("\t") for line in listing.splitlines()]
        self.lines = table[:4096].split(b"\n")
        self.lines = [line + b"\n" for line in self.lines[:-1]] + ([self.lines[-1]] if self.lines[-1] else [])
        self.refusal = entries[0][1:] if entries[0][0] == "R" else None
        self.budget_beside = budget
        self.budget_refused = budget != "" and int(budget) > MOST_BUDGET
        if self.refusal:
            return
        _, self.speed, self.energy, self.count = entries[0]
        self.order = [fields[1] for fields in entries if fields[0] == "O"]
        self.finish = {fields[1]: fields[2] for fields in entries if fields[0] == "O"}
        self.fate = {fields[1]: fields[2] for fields in entries if fields[0] == "X"}
        self.read_table()
        self.budget = budget or self.own_budget
        left = rooms.splitlines()[-1].split("\t")[2] if rooms else self.budget
        self.at_top_cost = str(int(self.budget) - int(left))
        self.begin = dict(zip(self.order, [self.now] + [self.finish[job] for job in self.order]))

    def read_table(self):
        rows = [line.decode("ascii").rstrip("\n").split("\t") for line in self.lines]
        self.now, self.own_budget = rows[0][1:]
        self.jobs = [row[1] for row in rows if row[0] == "J"]
        self.termination = {row[1]: row[5] for row in rows if row[0] == "J"}
        holder = {row[1]: row[2] for row in rows if row[0] == "H"}
        self.asks = {row[1]: holder[row[6]] for row in rows if row[0] == "J" and row[6] in holder}
        self.waits = {job: held for job, held in self.asks.items() if job in self.finish and held in self.finish}

    def axis_end(self):
        """the end of the plan, or the last termination within STRETCH times its length"""
        start, end = int(self.now), int(self.finish[self.order[-1]])
        times = [int(self.termination[job]) for job in self.order]
        return max([end] + [time for time in times if time - start <= (end - start) * STRETCH])


# ---- what it does show

class Box:
    def __init__(self, left, top, right, bottom):
        self.left, self.top, self.right, self.bottom = left, top, right, bottom

    def overlaps(self, other, by=TOUCH):
        return (self.left < other.right - by and other.left < self.right - by
                and self.top < other.bottom - by and other.top < self.bottom - by)

    def within(self, other, by=0.0):
        return (self.left >= other.left - by and self.right <= other.right + by
                and self.top >= other.top - by and self.bottom <= other.bottom + by)

    def middle(self):
        return (self.top + self.bottom) / 2


class Text(Box):
    def __init__(self, element):
        self.kind, self.words = kind_of(element), element.text or ""
        self.y, self.size = float(element.get("y")), float(element.get("font-size"))
        width = len(self.words) * self.size * LETTER
        left = float(element.get("x")) - {"start": 0, "middle": width / 2, "end": width}[element.get("text-anchor", "start")]
        super().__init__(left, self.y - ABOVE * self.size, left + width, self.y + BELOW * self.size)

    def middle(self):
        """of its digits"""
        return self.y - 0.35 * self.size


class Shape(Box):
    """a rect or a path; of a path, the points that it goes through"""

    def __init__(self, element):
        self.element, self.kind, self.title = element, kind_of(element), title_of(element)
        if element.tag == SVG + "rect":
            x, y, width, height = (float(element.get(name, "0")) for name in ("x", "y", "width", "height"))
            self.points = [(x, y), (x + width, y + height)]
        else:
            self.points = path_points(element.get("d"))
        across, down = zip(*self.points)
        super().__init__(min(across), min(down), max(across), max(down))

    def look(self):
        return [self.element.tag] + [self.element.get(name) for name in ("fill", "stroke", "stroke-width")]

    def parts(self):
        """the box of each step of the path"""
        for (x, y), (to_x, to_y) in zip(self.points, self.points[1:]):
            yield Box(min(x, to_x) - TOUCH, min(y, to_y) - TOUCH, max(x, to_x) + TOUCH, max(y, to_y) + TOUCH)


class Arrow:
    def __init__(self, group):
        self.title = title_of(group)
        self.line, self.head = (Shape(element) for element in group.findall(SVG + "path"))


class Picture:
    def __init__(self, svg):
        self.svg = svg
        self.root = tree.fromstring(svg)
        left, top, width, height = map(float, self.root.get("viewBox").split())
        self.box = Box(left, top, left + width, top + height)
        self.texts = [Text(element) for element in self.root.iter(SVG + "text")]
        self.shapes = [Shape(element) for element in self.root.iter() if element.tag in (SVG + "rect", SVG + "path")]
        self.arrows = [Arrow(group) for group in self.root.iter(SVG + "g") if kind_of(group) == "arrow"]

    def texts_of(self, *kinds):
        return [text for text in self.texts if text.kind in kinds]

    def shapes_of(self, *kinds):
        return [shape for shape in self.shapes if shape.kind in kinds]

    def row_of(self, job):
        """the label of a job; where there is not one alone, that is told elsewhere"""
        labels = [text for text in self.texts_of("job") if text.words == "job " + job]
        return labels[0] if len(labels) == 1 else None


def kind_of(element):
    return element.get("class", "").removeprefix(PREFIX)


def title_of(element):
    return element.findtext(SVG + "title", "")


def path_points(steps):
    points = []
    for command, numbers in re.findall(r"([A-Za-z])([^A-Za-z]*)", steps):
        values = [float(number) for number in numbers.split()]
        if command in "ML":
            points.append(tuple(values))
        elif command == "H":
            points.append((values[0], points[-1][1]))
        elif command == "V":
            points.append((points[-1][0], values[0]))
        elif command != "Z":
            raise ValueError(f"a path has the step {command}")
    return points


def numbers_in(words):
    return re.findall(r"[0-9]+", words)


def beside(row, box):
    return abs(row.middle() - box.middle()) < row.size / 4


def near(one, other, by=NEAR):
    return abs(one - other) <= by


# ---- every picture

def check_whole(picture, plan):
    root = picture.root
    if root.tag != SVG + "svg" or root.get("role") != "img":
        yield "the whole is no svg with the role img"
    for reference, tag in (("aria-labelledby", "title"), ("aria-describedby", "desc")):
        meant = root.find(SVG + tag)
        if meant is None or not (meant.text or "").strip() or meant.get("id") != root.get(reference) or not meant.get("id"):
            yield f"{reference} names no {tag} of the whole that says something"
    if not picture.svg.isascii():
        yield "there are letters that are not ASCII"
    if not near(float(root.get("width")), picture.box.right) or not near(float(root.get("height")), picture.box.bottom):
        yield "the size is not that of the view box"
    if picture.box.bottom > A4 * picture.box.right:
        yield "it does not go on a page of A4"


def check_alone(picture, plan):
    """nothing reaches out of the picture: no script, no style sheet, nothing loaded, no class or id without the prefix"""
    for element in picture.root.iter():
        tag = element.tag.removeprefix(SVG)
        if tag in FORBIDDEN or tag.startswith("{"):
            yield f"there is an element {tag}"
        for name, value in element.attrib.items():
            if name.startswith("on") or "href" in name or "url(" in value or (name == "style" and element is not picture.root):
                yield f"{tag} has {name}={value}"
            if name in ("class", "id") and not all(word.startswith(PREFIX) for word in value.split()):
                yield f"{tag} has {name}={value}, without the prefix"


def check_places(picture, plan):
    for text in picture.texts:
        if not text.within(picture.box):
            yield f"the text '{text.words}' is not inside the picture"
        if text.words != text.words.strip() and text.kind not in ("said", "refused", "hint") or not text.words:
            yield f"the text '{text.words}' is empty, or has a space at its side"
    for shape in picture.shapes:
        if not shape.within(picture.box):
            yield f"a {shape.kind} is not inside the picture"
    for i, text in enumerate(picture.texts):
        for other in picture.texts[:i]:
            if text.overlaps(other):
                yield f"the texts '{other.words}' and '{text.words}' overlap"
    yield from check_texts_and_shapes(picture)


def check_texts_and_shapes(picture):
    for shape in picture.shapes_of(*MEANT):
        for part in shape.parts() if shape.kind == "line" else [shape]:
            for text in picture.texts:
                if text.overlaps(part):
                    yield f"the text '{text.words}' overlaps a {shape.kind}"


# ---- a refusal

def check_refusal(picture, plan):
    number, line = plan.refusal
    said = "".join(text.words for text in picture.texts_of("said"))
    if not said.startswith(f"line {line}: ") or not said.endswith(f" ({number})"):
        yield f"the refusal {number} of line {line} is not said"
    if plan.budget_refused and plan.budget_beside not in numbers_in(said):
        yield "the budget that is refused is not said"
    if len(picture.texts_of("headline")) != 1 or "refused" not in picture.texts_of("headline")[0].words:
        yield "the headline does not say that it is refused"
    if picture.shapes_of(*MEANT) or picture.texts_of("job"):
        yield "there is something of a plan"
    shown = "".join(text.words for text in picture.texts_of("refused"))
    if plan.budget_refused or int(line) > len(plan.lines):
        if shown:
            yield "a line is shown, and the refusal means none"
    elif not shows(shown, plan.lines[int(line) - 1]):
        yield f"line {line} is not shown as it is"


NAMED = {9: "<tab>", 10: "<LF>", 13: "<CR>", 32: "<space>"}


def visible(byte):
    return NAMED.get(byte) or (chr(byte) if 32 < byte < 127 and byte != ord("<") else f"<{byte:02X}>")


def shows(shown, line):
    """the line with each odd byte made visible, whole, or cut after its beginning with the count of the bytes that are left"""
    cut = re.fullmatch(r"(.*) and ([0-9]+) bytes more", shown)
    if not cut:
        return shown == "".join(map(visible, line))
    kept = len(line) - int(cut.group(2))
    return 0 < kept < len(line) and len(shown) > 100 and cut.group(1) == "".join(map(visible, line[:kept]))


# ---- a plan: words and numbers

def check_head(picture, plan):
    """speed, energy, count, now and the budgets"""
    left = len(plan.jobs) - len(plan.order)
    expected = [("headline", [[plan.count] + ([str(left)] if left else [])]),
                ("summary", [[plan.speed, plan.energy, plan.now] + [plan.finish[job] for job in plan.order[-1:]],
                             [plan.budget] + ([plan.own_budget] if plan.budget_beside else [])]),
                ("cost", [[plan.speed], []]),
                ("units", [[plan.energy], [plan.at_top_cost]])]
    for kind, numbers in expected:
        found = [numbers_in(text.words) for text in picture.texts_of(kind)]
        if found != numbers:
            yield f"the numbers of {kind} are {found}, and not {numbers}"
    if [text.words for text in picture.texts_of("note")] != ["times in ms, rounded up to whole ms"]:
        yield "there is no note on the times"


def check_rows(picture, plan):
    labels = [text.words for text in picture.texts_of("job")]
    if labels != ["job " + job for job in plan.order + [job for job in plan.jobs if job in plan.fate]]:
        yield "not every job has one label, those of the plan first, in its order"
    for job in plan.jobs:
        row = picture.row_of(job)
        if row is None:
            yield f"job {job} has not one label"
            continue
        found = {text.kind: text.words for text in picture.texts if near(text.y, row.y) and text is not row}
        count = sum(near(text.y, row.y) for text in picture.texts) - 1
        expected = planned_row(plan, job) if job in plan.finish else unplanned_row(plan, job, found.get("reason", ""))
        if found != expected or count != len(expected):
            yield f"beside job {job} stands {found}, and not {expected}"


def planned_row(plan, job):
    row = {"begins": plan.begin[job], "ends": plan.finish[job], "termination": plan.termination[job]}
    return row | ({"waits": plan.waits[job]} if job in plan.waits else {})


def unplanned_row(plan, job, reason):
    """whatever the words of the reason are, there are some, and the number of the fate"""
    worded = re.fullmatch(r"[a-z][^0-9()]+ \(([0-9])\)", reason)
    row = {"reason": reason if worded and worded.group(1) == plan.fate[job] else f"words and ({plan.fate[job]})"}
    if job in plan.asks:
        row["asks"] = f"asks for what job {plan.asks[job]} holds"
    return row | {"termination": plan.termination[job]}


def check_reasons(picture, plan):
    """the words of a fate are the same for all its jobs, and others for another fate"""
    pairs = {(text.words[:-4], text.words[-4:]) for text in picture.texts_of("reason")}
    if len({words for words, _ in pairs}) != len(pairs) or len({number for _, number in pairs}) != len(pairs):
        yield "a fate has two reasons, or a reason two fates"


def check_description(picture, plan):
    whole, *said = [numbers_in(line) for line in picture.root.findtext(SVG + "desc", "").strip().splitlines()]
    ends = [plan.finish[job] for job in plan.order[-1:]]
    budgets = [plan.budget, plan.own_budget] if plan.budget_beside else [plan.budget]
    if whole != [plan.speed, plan.energy, plan.now] + ends + budgets + [plan.at_top_cost]:
        yield "the description does not begin with the plan's numbers"
    planned = [[job, plan.begin[job], plan.finish[job], job, plan.termination[job]]
               + ([job, plan.waits[job]] if job in plan.waits else []) for job in plan.order]
    unplanned = [[job, plan.fate[job]] + ([plan.asks[job]] if job in plan.asks else []) for job in plan.jobs if job in plan.fate]
    if said != planned + unplanned:
        yield "the description does not say each job with its numbers"


# ---- a plan: shapes

class TimeLine:
    """where a time stands, by the ends of the axis"""

    def __init__(self, picture, plan):
        axes = picture.shapes_of("axis")
        if len(axes) != 1:
            raise ValueError("there is not one axis")
        self.left, self.right = axes[0].left, axes[0].right
        self.start, self.end = int(plan.now), plan.axis_end()

    def x(self, time):
        return self.left + (int(time) - self.start) * (self.right - self.left) / (self.end - self.start)


def check_width(shape, left, width):
    """to scale; what is narrower than a hairline is drawn as one"""
    return near(shape.left, left) and width - NEAR <= shape.right - shape.left <= max(width, HAIRLINE) + NEAR


def check_bars(picture, plan):
    bars, line = picture.shapes_of("bar"), TimeLine(picture, plan)
    if len(bars) != len(plan.order):
        yield f"there are {len(bars)} bars for {len(plan.order)} planned jobs"
    for job, bar in zip(plan.order, bars):
        begin, end = line.x(plan.begin[job]), line.x(plan.finish[job])
        if not check_width(bar, begin, end - begin) or bar.right - bar.left < 1:
            yield f"the bar of job {job} is not from {plan.begin[job]} to {plan.finish[job]}"
        if not picture.row_of(job) or not beside(picture.row_of(job), bar):
            yield f"the bar of job {job} is not beside its label"
        if numbers_in(bar.title) != [job, plan.begin[job], plan.finish[job]]:
            yield f"the title of the bar of job {job} is '{bar.title}'"
    for i, bar in enumerate(bars):
        if any(bar.overlaps(other, 0) for other in bars[:i]):
            yield f"bar {i + 1} overlaps another"
        if i > 0 and bar.top <= bars[i - 1].top:
            yield f"bar {i + 1} is not below the one before it"


def check_marks(picture, plan):
    line = TimeLine(picture, plan)
    marks = picture.shapes_of("mark", "beyond")
    if len(marks) != len(plan.order):
        yield f"there are {len(marks)} marks for {len(plan.order)} planned jobs"
    for job, mark in zip(plan.order, marks):
        time = plan.termination[job]
        if int(time) > line.end:
            right_place = mark.kind == "beyond" and mark.left > line.right
        else:
            right_place = mark.kind == "mark" and near(mark.right, line.x(time))
        if not right_place or not picture.row_of(job) or not beside(picture.row_of(job), mark):
            yield f"the mark of job {job} is not at its termination, {time}"
        if numbers_in(mark.title) != [job, time]:
            yield f"the title of the mark of job {job} is '{mark.title}'"


def check_arrows(picture, plan):
    bars = dict(zip(plan.order, picture.shapes_of("bar")))
    pairs = [(job, plan.waits[job]) for job in plan.order if job in plan.waits]
    if [numbers_in(arrow.title) for arrow in picture.arrows] != [list(pair) for pair in pairs]:
        yield "there is not one arrow for each job that waits"
        return
    for (job, held), arrow in zip(pairs, picture.arrows):
        if not leaves(arrow, bars[held]) or not reaches(arrow, bars[job]):
            yield f"the arrow of job {job} does not go from the bar of job {held} to its own"
        for other, bar in bars.items():
            if any(part.overlaps(bar, 2 * TOUCH) for part in arrow.line.parts()) or arrow.head.overlaps(bar):
                yield f"the arrow of job {job} runs through the bar of job {other}"


def leaves(arrow, bar):
    x, y = arrow.line.points[0]
    return near(x, bar.right, TOUCH) and bar.top <= y <= bar.bottom


def reaches(arrow, bar):
    """from above near the beginning of the bar, or from the right where it is narrow; the head sits on the end of the line"""
    (x, y), *base = arrow.head.points
    end_x, end_y = arrow.line.points[-1]
    joined = near(end_x, sum(point[0] for point in base) / 2, TOUCH) and near(end_y, sum(point[1] for point in base) / 2, TOUCH)
    above = near(y, bar.top, TOUCH) and bar.left < x < min(bar.right, bar.left + 10) and end_y < y
    right = near(x, bar.right, TOUCH) and bar.top <= y <= bar.bottom and bar.right - bar.left < 10 and end_x > x
    return joined and (above or right)


def check_ticks(picture, plan):
    line = TimeLine(picture, plan)
    ticks, labels = picture.shapes_of("tick"), picture.texts_of("time")
    times = [int(text.words) for text in labels]
    steps = {later - time for time, later in zip(times, times[1:])}
    if not 2 <= len(ticks) <= MOST_TICKS or len(labels) != len(ticks):
        yield f"there are {len(ticks)} ticks and {len(labels)} times over them"
    if len(steps) != 1 or not re.fullmatch("[125]0*", str(min(steps))) or times[0] % min(steps):
        yield f"the times of the ticks are not round: {times}"
    for tick, text, time in zip(ticks, labels, times):
        if not near(tick.left, line.x(time)) or not near(tick.right, tick.left) or not text.left <= tick.left <= text.right:
            yield f"the tick {time} is not at its place"


def check_time_line(picture, plan):
    """all that there is only where something is planned"""
    if not plan.order:
        if picture.shapes_of("bar", "mark", "beyond", "tick", "axis") or picture.arrows:
            yield "nothing is planned, and there is a time line"
        return
    for part in (check_bars, check_marks, check_arrows, check_ticks, check_legend):
        yield from part(picture, plan)


def check_budget(picture, plan):
    frames = picture.shapes_of("budget")
    if len(frames) != 2 or not near(frames[0].left, frames[1].left) or not near(frames[0].right, frames[1].right):
        yield "there are not two frames of the budget, one as wide as the other"
        return
    parts = (("spent", plan.energy, [plan.energy, plan.speed]), ("top", plan.at_top_cost, [plan.at_top_cost]))
    for frame, label, (kind, units, titled) in zip(frames, picture.texts_of("units"), parts):
        found = picture.shapes_of(kind)
        if not beside(label, frame):
            yield f"the units of {kind} are not beside their frame"
        if len(found) != (units != "0"):
            yield f"there are {len(found)} bars of {kind} for {units} units"
        for bar in found:
            width = int(units) / int(plan.budget) * (frame.right - frame.left)
            if not check_width(bar, frame.left, width) or not bar.within(frame, NEAR) or numbers_in(bar.title) != titled:
                yield f"the bar of {kind} is not {units} of {plan.budget} units"
    hatched = [shape for shape in picture.shapes_of("hatch") if shape.overlaps(frames[1], 0)]
    top = picture.shapes_of("top")
    if len(hatched) != len(top) or not all(hatch.within(bar, NEAR) for hatch, bar in zip(hatched, top)):
        yield "what is spent at top cost is not hatched"


def check_legend(picture, plan):
    """what is drawn stands in the legend, looking the same"""
    if len(picture.texts_of("legend")) != 6:
        yield "the legend has not six entries"
    legend_top = min((text.top for text in picture.texts_of("legend")), default=picture.box.bottom)
    explained = [shape.look() for shape in picture.shapes if shape.top > legend_top - 5]
    for kind in MEANT + ("hatch",):
        if any(shape.look() not in explained for shape in picture.shapes_of(kind)):
            yield f"the legend does not show a {kind}"


EVERY = (check_whole, check_alone, check_places)
REFUSED = (check_refusal,)
PLANNED = (check_head, check_rows, check_reasons, check_description, check_budget, check_time_line)


def check(svg, table, listing, rooms, budget):
    """what is wrong with the picture, in words"""
    plan = Plan(table, listing, rooms, budget)
    try:
        picture = Picture(svg)
        return [fault for part in EVERY + (REFUSED if plan.refusal else PLANNED) for fault in part(picture, plan)]
    except (tree.ParseError, ValueError, TypeError, KeyError, IndexError, AttributeError) as odd:
        return [f"the picture cannot be read: {odd}"]


# ---- broken pictures. A break is made of the first and then of the last element of a kind; it says whether there was one.

def elements(root, kind, tag=None):
    return [element for element in root.iter() if kind_of(element) == kind and tag in (None, element.tag.removeprefix(SVG))]


def with_one(kind, change, tag=None):
    def broken(root, which):
        found = elements(root, kind, tag)
        return bool(found) and change(root, found[which]) is not False
    return broken


def remove(root, element):
    next(parent for parent in root.iter() if element in list(parent)).remove(element)


def double(root, element):
    parent = next(parent for parent in root.iter() if element in list(parent))
    parent.insert(list(parent).index(element), element)


def add(name, by):
    def change(root, element):
        element.set(name, str(round(float(element.get(name)) + by, 1)))
    return change


def shift_path(by_x, by_y=0):
    def change(root, element):
        points = [(round(x + by_x, 1), round(y + by_y, 1)) for x, y in path_points(element.get("d"))]
        closed = "Z" if element.get("d").endswith("Z") else ""
        element.set("d", "M" + "L".join(f"{x} {y}" for x, y in points) + closed)
    return change


def shift_arrow(part, by_x, by_y=0):
    def change(root, group):
        shift_path(by_x, by_y)(root, group.findall(SVG + "path")[part])
    return change


def change_number(which):
    """the last digit of the number at a place in the words"""
    def change(root, element):
        spots = list(re.finditer(r"[0-9]+", element.text or ""))
        if len(spots) <= which:
            return False
        at = spots[which].end() - 1
        element.text = element.text[:at] + str((int(element.text[at]) + 1) % 10) + element.text[at + 1:]
        return True
    return change


def change_title(root, element):
    return change_number(1)(root, element.find(SVG + "title"))


def put_over_another(root, element):
    other = next((text for text in root.iter(SVG + "text") if text is not element), None)
    if other is None:
        return False
    for name in ("x", "y", "text-anchor"):
        element.attrib.pop(name, None)
        if other.get(name):
            element.set(name, other.get(name))
    return True


def put_over_bar(root, element):
    for bar in elements(root, "bar")[:1]:
        element.set("x", bar.get("x"))
        element.set("y", str(float(bar.get("y")) + 5))
        element.attrib.pop("text-anchor", None)
        return True
    return False


def exchange(root, element):
    """the words of an element and of another of its kind that has other words"""
    for other in elements(root, kind_of(element)):
        if other.text != element.text:
            element.text, other.text = other.text, element.text
            return True
    return False


def without(name):
    def change(root, element):
        return element.attrib.pop(name, None) is not None
    return change


def put(name, value):
    def change(root, element):
        element.set(name, value)
    return change


def put_in(tag):
    def change(root, element):
        tree.SubElement(element, SVG + tag)
    return change


def without_whole(tag):
    def change(root, element):
        root.remove(root.find(SVG + tag))
    return change


def empty_title(root, element):
    element.remove(element.find(SVG + "title"))


BREAKS = {
    "no role": with_one("picture", without("role")),
    "no label": with_one("picture", without("aria-labelledby")),
    "no title": with_one("picture", without_whole("title")),
    "no description": with_one("picture", without_whole("desc")),
    "a script": with_one("picture", put_in("script")),
    "a style sheet": with_one("picture", put_in("style")),
    "something loaded": with_one("headline", put("href", "other.svg")),
    "a class without the prefix": with_one("headline", put("class", "headline")),
    "an id without the prefix": with_one("headline", put("id", "headline")),
    "a text of other letters": with_one("headline", lambda root, element: setattr(element, "text", "\u00e4" + element.text)),
    "a text too far right": with_one("headline", add("x", 900)),
    "a text too far down": with_one("headline", add("y", 9000)),
    "a number too far right": with_one("termination", add("x", 30)),
    "a text too large": with_one("headline", put("font-size", "90")),
    "a text over another": with_one("headline", put_over_another),
    "a number over a bar": with_one("ends", put_over_bar),
    "no headline": with_one("headline", remove),
    "another count": with_one("headline", change_number(0)),
    "another speed": with_one("summary", change_number(0)),
    "another energy": with_one("summary", change_number(1)),
    "another now": with_one("summary", change_number(2)),
    "no budget": with_one("summary", remove),
    "another cost": with_one("cost", change_number(0)),
    "other units": with_one("units", change_number(0)),
    "a label doubled": with_one("job", double),
    "a label missing": with_one("job", remove),
    "a label of another job": with_one("job", change_number(0)),
    "labels exchanged": with_one("job", exchange),
    "another beginning": with_one("begins", change_number(0)),
    "another finish": with_one("ends", change_number(0)),
    "a finish missing": with_one("ends", remove),
    "finishes exchanged": with_one("ends", exchange),
    "another termination": with_one("termination", change_number(0)),
    "a termination missing": with_one("termination", remove),
    "another holder": with_one("waits", change_number(0)),
    "a holder missing": with_one("waits", remove),
    "another fate": with_one("reason", change_number(0)),
    "a reason missing": with_one("reason", remove),
    "a reason without words": with_one("reason", lambda root, element: setattr(element, "text", element.text[-3:])),
    "reasons exchanged": with_one("reason", exchange),
    "another job asked": with_one("asks", change_number(0)),
    "a bar moved": with_one("bar", add("x", 1)),
    "a bar in the row below": with_one("bar", add("y", 17)),
    "a bar too wide": with_one("bar", add("width", 3)),
    "a bar missing": with_one("bar", remove),
    "a bar doubled": with_one("bar", double),
    "a bar outside": with_one("bar", add("x", -400)),
    "a bar without title": with_one("bar", empty_title),
    "another title of a bar": with_one("bar", change_title),
    "a mark moved": with_one("mark", shift_path(1)),
    "a mark in the row below": with_one("mark", shift_path(0, 17)),
    "a mark missing": with_one("mark", remove),
    "a mark doubled": with_one("mark", double),
    "a mark without title": with_one("mark", empty_title),
    "a far mark missing": with_one("beyond", remove),
    "a far mark among the bars": with_one("beyond", shift_path(-100)),
    "an arrow missing": with_one("arrow", remove),
    "an arrow doubled": with_one("arrow", double),
    "an arrow without title": with_one("arrow", empty_title),
    "another title of an arrow": with_one("arrow", change_title),
    "an arrow that leaves elsewhere": with_one("arrow", shift_arrow(0, -3)),
    "an arrow that leaves another row": with_one("arrow", shift_arrow(0, 0, -17)),
    "an arrow to another row": with_one("arrow", shift_arrow(1, 0, 17)),
    "an arrow that points elsewhere": with_one("arrow", shift_arrow(1, 15)),
    "a tick moved": with_one("tick", shift_path(1)),
    "another time over a tick": with_one("time", change_number(0)),
    "a tick without its time": with_one("time", remove),
    "more spent": with_one("spent", add("width", 3)),
    "more spent at top cost": with_one("top", add("width", 3)),
    "nothing spent": with_one("spent", remove),
    "no hatching": with_one("top", lambda root, element: remove(root, elements(root, "hatch")[0])),
    "a frame too wide": with_one("budget", add("width", 1)),
    "a frame missing": with_one("budget", remove),
    "a legend without words": with_one("legend", remove, "text"),
    "another look than in the legend": with_one("bar", put("fill", "#123456")),
    "no note": with_one("note", remove),
    "another line refused": with_one("said", change_number(0)),
    "another refusal": with_one("said", change_number(-1)),
    "another line shown": with_one("refused", lambda root, element: setattr(element, "text", element.text[:-1])),
    "no line shown": with_one("refused", lambda root, element: [remove(root, text) for text in elements(root, "refused")]),
}


def broken_ones_are_found(svg, table, listing, rooms, budget, made):
    """the breaks of a picture that is in order which check does not find, in words; made gets those that could be made"""
    whole = tree.tostring(tree.fromstring(svg), encoding="unicode")
    faults = [f"unbroken: {fault}" for fault in check(whole, table, listing, rooms, budget)]
    if not check(svg[:-8], table, listing, rooms, budget):
        faults.append("not found: a picture that is cut off")
    for name, broken in BREAKS.items():
        for which in (0, -1):
            root = tree.fromstring(svg)
            if not broken(root, which):
                continue
            made.add(name)
            if not check(tree.tostring(root, encoding="unicode"), table, listing, rooms, budget):
                faults.append(f"not found: {name}")
    return faults
