"""The units of an office's columns: how much of a basin file's unit one of theirs is, by the package pint.

A basin file counts water in units of 1,000 cubic metres, areas in hectares, evaporation in millimetres and returns in
parts of 10,000. A column without a unit has these already, and needs no pint. Conversions are exact fractions.
"""
import math
import re
import tokenize
from fractions import Fraction

from beside.common import Fault, Stop

DAY = 86400                         # seconds
NUMBER = re.compile(r"[+-]?([0-9]{1,20}(\.[0-9]{0,20})?|\.[0-9]{1,20})([eE][+-]?[0-9]{1,2})?")
# For each kind of amount: its name, the unit of the basin file and that in metres, its power of length, and the powers
# of time that it may have. With -1 it is a rate and counts days: as `water` those of the month.
KINDS = {
    "water": ("water of a month", "units of 1,000 m3", Fraction(1000), 3, (0, -1)),
    "yearly": ("water of a year", "units of 1,000 m3", Fraction(1000), 3, (0,)),
    "store": ("stored water", "units of 1,000 m3", Fraction(1000), 3, (0,)),
    "per_day": ("a rate of flow", "units of 1,000 m3 a day", Fraction(1000), 3, (-1,)),
    "area": ("an area", "hectares", Fraction(10000), 2, (0,)),
    "depth": ("a depth of evaporation in a month", "millimetres", Fraction(1, 1000), 1, (0, -1)),
    "part": ("a part, as percent is", "parts of 10,000", Fraction(1, 10000), 0, (0,)),
}
# What a column may say after its unit without a change of its meaning.
OWN_TIME = {"water": "month", "depth": "month", "yearly": "year"}
# Units that pint hasn't, or has by another name, and spellings that it doesn't read.
DEFINED = (
    "cubic_foot_per_second = foot ** 3 / second = cfs = CFS",
    "cubic_metre_per_second = meter ** 3 / second = cms = CMS",
    "thousand_acre_foot = 1000 * acre_foot = taf = TAF",
    "million_gallon_per_day = 1000000 * gallon / day = mgd = MGD",
    "gallon_per_minute = gallon / minute = gpm = GPM",
    "percent = 1 / 100",
    "@alias acre_foot = af = AF",
    "@alias acre = ac",
)
SPELLINGS = (
    (r"(?i)\bac(re)?s?[-. _]?f(ee|oo)?t\b", "acre_foot"),
    (r"(?i)\bmillion ", "1000000 "),
    (r"(?i)\bthousand ", "1000 "),
    (r" an? ", " per "),
    (r"([A-Za-z])([23])\b", r"\1**\2"),
    (r"%", "percent"),
    (r",", ""),
)
registry = None

class NoPint(Stop):
    """The package pint isn't installed."""

    status = 2

class BadUnit(Fault):
    """The unit of a column isn't known, or isn't one of what the column has."""

class BadNumber(Fault):
    """The text is no number, or no whole number where it has to be one."""

def load_pint():
    """The units of pint, in exact fractions."""
    global registry
    if registry is None:
        try:
            import pint
        except ImportError:
            told = "the unit of a column needs the package pint: apt-get install python3-pint, or pip install pint"
            raise NoPint(told) from None
        registry = pint.UnitRegistry(non_int_type=Fraction)
        for line in DEFINED:
            registry.define(line)
    return registry

def in_metres(unit):
    """What one of a unit is in metres and seconds, with its powers of length and of time; None where it isn't known."""
    units = load_pint()
    for spelling, known in SPELLINGS:
        unit = re.sub(spelling, known, unit)
    try:
        base = (units.Quantity(1) * units.parse_expression(unit)).to_base_units()
        size = Fraction(base.magnitude)
    except (AttributeError, TypeError, ValueError, SyntaxError, ArithmeticError, LookupError, tokenize.TokenError):
        return None
    powers = dict(base.dimensionality)
    length, time = powers.pop("[length]", 0), powers.pop("[time]", 0)
    return None if powers or size <= 0 else (size, length, time)

class Measure:
    """The unit of a column. `factor` is how much of the basin file's unit one of it is; of a rate, in a day."""

    def __init__(self, kind, unit):
        self.unit, self.factor, self.is_rate = unit, Fraction(1), kind == "per_day"
        self.name, self.whole_of, metres, power, times = KINDS[kind]
        if unit is None:
            return
        told = re.fullmatch(r"(.*?)(?: */ *| per | an? )(month|year)", unit)
        if told and told[2] == OWN_TIME.get(kind):
            unit, times = told[1], (0,)
        elif re.search(r"(?i)\b(months?|mo|years?|yrs?|annum)\b", unit):
            raise BadUnit(f"{unit} is no unit of {self.name}: months and years differ in length: write it by the day")
        found = in_metres(unit)
        if found is None:
            known = "acre-feet, cfs, m3/s, 1000 m3, acres, ha, in, mm or %"
            raise BadUnit(f"the unit {unit} isn't known: write one as {known}")
        size, length, time = found
        if length != power or time not in times:
            raise BadUnit(f"{unit} is no unit of {self.name}")
        self.is_rate = time == -1
        self.factor = size / metres * (DAY if self.is_rate else 1)

    def read(self, text, is_whole=True):
        """What a number is in the basin file's unit; of a rate, in a day. Without a unit it has to be whole."""
        if not NUMBER.fullmatch(text):
            has_commas = re.fullmatch(r"[0-9.,]+", text)
            how = ": leave its commas out, and write a point before a fraction" if has_commas else ""
            raise BadNumber(f"{text} is no number{how}")
        amount = Fraction(text) * self.factor
        if is_whole and self.unit is None and amount.denominator != 1:
            how = "round it, or write the unit into the heading, as in `(acre-feet)`"
            raise BadNumber(f"{text} is no whole number of {self.whole_of}: {how}")
        return amount

def nearest(amount):
    """The nearest whole number, and of two the greater."""
    return math.floor(amount + Fraction(1, 2))
