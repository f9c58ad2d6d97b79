"""The physical data of the verification cases, read from their texts, and the rows of the table of expected values."""
import math
from pathlib import Path

FOLDER = Path(__file__).resolve().parent
GRAVITY = 9.80665  # m/s2
HEAD_ROUNDING = 0.00002  # m: some tens of roundings to 1e-6 m
TIME_ROUNDING = 0.000001  # s: the time falls on a step
SHUT = 1.0  # s: the time at which the sudden events of the cases stand

# reasons of tolerances
ROUNDING = "rounding of the area to 1 mm2 and of heads to 1e-6 m"
AREA_ROUNDING = "rounding of the area to 1 mm2"
ON_A_STEP = "none: the time falls on a step"

rows = []


class Pipe:
    """A pipe of a case text, with what follows from its fields."""

    def __init__(self, fields):
        self.length, self.diameter, self.wave_speed, self.friction, self.flow = map(float, fields[4:9])
        self.area = math.pi / 4 * self.diameter ** 2
        self.velocity = self.flow / self.area
        self.impedance = self.wave_speed / (GRAVITY * self.area)  # head of a wave over its flow, s/m2
        self.travel = self.length / self.wave_speed  # L/a, s
        self.resistance = self.friction * self.length / (2 * GRAVITY * self.diameter * self.area ** 2)  # s2/m5
        self.joukowsky = self.wave_speed * self.velocity / GRAVITY
        # the program rounds the area to 1 mm2, and takes 355/452 for pi/4
        self.area_rounding = 0.5e-6 / self.area + 1e-7

    def rounding(self, head):
        """The tolerance of a head that was made by a wave of this pipe."""
        return abs(head) * self.area_rounding + HEAD_ROUNDING


class Case:
    """The directives of a case text by their words and names."""

    def __init__(self, name):
        self.name = name
        text = (FOLDER / f"{name}.case").read_text()
        self.lines = [line.split("#")[0].split() for line in text.splitlines()]
        self.step = float(self.fields("step")[1])

    def fields(self, word, name=None):
        for line in self.lines:
            if line and line[0] == word and name in (None, line[1]):
                return line
        raise KeyError(f"{self.name}.case has no {word} {name or ''}")

    def pipe(self, name):
        return Pipe(self.fields("pipe", name))

    def reaches(self, name):
        pipe = self.pipe(name)
        return round(pipe.length / (pipe.wave_speed * self.step))

    def number(self, word, name, place):
        return float(self.fields(word, name)[place])

    def head(self, name):
        return self.number("reservoir", name, 3)

    def table(self, word, name):
        numbers = list(map(float, self.fields(word, name)[2:]))
        return list(zip(numbers[0::2], numbers[1::2]))

    def at(self, time):
        """The step at a time; the time falls on one."""
        step = round(time / self.step)
        assert abs(step * self.step - time) < 1e-9, f"{self.name}.case: {time} s is no step"
        return step

    def expect(self, line, quantity, formula, value, tolerance, reason):
        places = 9 if "m3/s" in quantity or quantity.endswith("m3") else 6
        rows.append([self.name, line, quantity, formula, f"{value:.{places}f}", up(tolerance), reason])


def up(tolerance):
    """The tolerance with two digits that count, rounded up."""
    unit = 10.0 ** (math.floor(math.log10(tolerance)) - 1)
    count = math.ceil(tolerance / unit - 1e-9)
    return f"{count * unit:.{max(0, -round(math.log10(unit)))}f}"
