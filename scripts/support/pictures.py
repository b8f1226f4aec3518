"""Reads a picture of rounds as its reader does: by its axes, its legend and its lines. What the
picture should show is given as rows of numbers."""

from xml.etree import ElementTree

from checking import want

# The names of the legend, from top to bottom.
SERIES = [
    "highest urgency",
    "very under-replicated",
    "under-replicated",
    "badly distributed",
    "missing",
    "copies on their way",
    "replicas in excess",
    "corrupt replicas",
    "copies commanded",
    "deletes commanded",
    "calls refused",
]

GRID, MARK = "#dddddd", "#444444"

# The greatest number of steps on the axis of counts.
MOST_STEPS = 6


def numbers_of(element, *names):
    return [int(element.get(name)) for name in names]


def paint_of(line):
    return tuple(line.get(f"stroke{it}") for it in ("", "-width", "-dasharray"))


class Picture:
    def __init__(self, text):
        self.parts = list(ElementTree.fromstring(text))
        self.texts = [(*numbers_of(it, "x", "y"), it.text) for it in self.parts_of("text")]

    def parts_of(self, tag):
        return [it for it in self.parts if it.tag.rpartition("}")[2] == tag]

    def lines_of(self, colour):
        """The ends of the lines of a colour."""
        return [numbers_of(it, "x1", "y1", "x2", "y2") for it in self.parts_of("line") if it.get("stroke") == colour]

    def count_axis(self):
        """The numbers of the grid from 0 on, each with its distance from the top."""
        grid = sorted((y for _, y, _, _ in self.lines_of(GRID)), reverse=True)
        marks = sorted((y, int(text)) for x, y, text in self.texts if x == 68)[::-1]
        want([y - 4 for y, _ in marks] == grid, f"numbers at {marks}, and the grid at {grid}")
        return [(number, y) for y, (_, number) in zip(grid, marks)]

    def round_axis(self):
        """The rounds with a mark, each with its distance from the left."""
        marks = [x for x, _, _, _ in self.lines_of(MARK)]
        named = [(x, int(text)) for x, y, text in self.texts if y == 378]
        want([x for x, _ in named] == marks, f"rounds at {named}, and marks at {marks}")
        return [(number, x) for x, number in named]

    def legend(self):
        """For each name its greatest number and the paint of its line; 0 and None if it has no
        line."""
        paints = {y + 4: paint_of(it) for it in self.parts_of("line") if it.get("x1") == "648" for y in numbers_of(it, "y1")}
        found = {}
        for x, y, text in self.texts:
            if x == 686:
                name, _, most = text.rpartition(": ")
                want((most == "none") == (y not in paints), f"{text}: its line is {paints.get(y)}")
                found[name] = (0, None) if most == "none" else (int(most.removeprefix("max ")), paints[y])
        return found

    def points(self):
        """The points of each line, by its paint."""
        found = {}
        for it in self.parts_of("polyline"):
            want(paint_of(it) not in found, "two lines look alike")
            found[paint_of(it)] = [tuple(map(int, point.split(","))) for point in it.get("points").split()]
        return found


def is_near(found, exact, what):
    """A place is a whole number: the exact one is nearer than the next."""
    want(abs(found - exact) < 1, f"{what} is at {found}, not at {exact:.2f}")


def shows(picture, rows):
    """Whether a picture shows these rows, each a round and its counts by name. A count that is not
    given is 0. A row lasts until the next round begins, and the last round ends at the right."""
    counts = {name: [row.get(name, 0) for _, row in rows] for name in SERIES}
    most = {name: max(its) for name, its in counts.items()}
    height = is_count_axis(picture.count_axis(), max(1, *most.values()))
    [[left, right]] = {(one, other) for one, _, other, _ in picture.lines_of(GRID)}
    last = rows[-1][0]

    def place_of(round_number):
        return left + (right - left) * (round_number - 1) / last

    is_round_axis(picture.round_axis(), last, place_of)
    legend, points = picture.legend(), picture.points()
    want([(name, it[0]) for name, it in legend.items()] == [*most.items()], f"the legend is {legend}, not {most}")
    shown = [name for name in SERIES if most[name]]
    want([legend[name][1] for name in shown] == [*points], f"lines {[*points]}, and in the legend {legend}")
    for name in shown:
        line = points[legend[name][1]]
        want(len(line) == 2 * len(rows), f"{name}: {len(line)} points of {len(rows)} rows")
        for (number, _), count, *ends in zip(rows, counts[name], line[::2], line[1::2]):
            for (x, y), past in zip(ends, (number, number + 1)):
                is_near(x, place_of(past), f"{name}: round {past}")
                is_near(y, height(count), f"{name}: {count} in round {number}")


def is_count_axis(axis, most):
    """The axis goes from 0 in equal steps to the first that is at least the greatest count. A step
    is 1, 2 or 5, perhaps with zeros. Returns where a count belongs."""
    numbers = [number for number, _ in axis]
    step = numbers[1]
    want(str(step).rstrip("0") in ("1", "2", "5") and len(numbers) <= MOST_STEPS + 1, f"the axis has {numbers}")
    want(numbers == [*range(0, step * len(numbers), step)], f"the axis has {numbers}")
    want(numbers[-2] < most <= numbers[-1], f"the axis has {numbers}, and the greatest count is {most}")
    bottom, top = axis[0][1], axis[-1][1]

    def height(count):
        return bottom + (top - bottom) * count / numbers[-1]

    for number, y in axis:
        is_near(y, height(number), f"the mark of {number}")
    return height


def is_round_axis(axis, last, place_of):
    """Round 1 has a mark, and each multiple of a step."""
    numbers = [number for number, _ in axis]
    step = numbers[2] - numbers[1] if len(numbers) > 2 else 1
    want(numbers == sorted({1, *range(step, last + 1, step)}), f"rounds {numbers} of {last} have marks")
    for number, x in axis:
        is_near(x, place_of(number), f"the mark of round {number}")
