"""What a record emits with the factors of a source, calculated a second time.

The calculation is written from the rules in docs/FACTORS.md and docs/EMISSIONS.md and shares nothing with
the program. It follows the formulas in their own units, in tonnes, megawatt hours and gigajoules, with exact
fractions. Frames and records come from expected.py.
"""

from collections.abc import Callable
from dataclasses import dataclass
from fractions import Fraction
from math import floor

import expected
from expected import Record, Refused

# The layer that refuses a record for its factor, besides those in expected.py.
FACTOR = "factor"


# ---- Questions and factors ----

FUELS, CARBONATES, METHANE, POWER, HEAT = range(1, 6)


@dataclass(frozen=True)
class Question:
    """What a record asks a source: for the factor of a class and item, at a tier, in a year."""

    class_number: int
    item: int
    tier: str
    year: int


@dataclass(frozen=True)
class Factor:
    rate: int
    share: int


def question_of(record: Record) -> Question | None:
    """The question of a lawful record; None for bought carbon dioxide, which needs no factor."""
    if record.kind == expected.BOUGHT_CO2:
        return None
    class_number, item = {
        expected.FUEL: (FUELS, record.item),
        expected.CARBONATE: (CARBONATES, record.item),
        expected.WASTEWATER: (METHANE, 0),
        expected.POWER_BOUGHT: (POWER, 0),
        expected.POWER_SOLD: (POWER, 0),
        expected.HEAT_BOUGHT: (HEAT, 0),
        expected.HEAT_SOLD: (HEAT, 0),
    }[record.kind]
    return Question(class_number, item, record.tier, record.year)


# The largest rate of each class, and the shares that its factors may have.
LARGEST_RATE = {FUELS: 10**9, CARBONATES: 100_000, METHANE: 30_000, POWER: 100_000, HEAT: 10_000}
SHARES = {
    FUELS: range(0, 1001),
    CARBONATES: range(1000, 1001),
    METHANE: range(0, 1001),
    POWER: range(1000, 1001),
    HEAT: range(1000, 1001),
}


def keeps_limits(class_number: int, factor: Factor) -> bool:
    return 0 <= factor.rate <= LARGEST_RATE[class_number] and factor.share in SHARES[class_number]


# ---- Sources ----

# A source answers a question with a factor, or with None where it holds nothing.
Source = Callable[[Question], Factor | None]


@dataclass(frozen=True)
class PrintedFuel:
    """A fuel as it is printed: GJ per t or per 10000 cubic metres, tC per GJ, and the part that burns."""

    heat_value: Fraction
    carbon: Fraction
    oxidation: Fraction

    def factor(self) -> Factor:
        rate = self.heat_value * self.carbon * 10**8
        share = self.oxidation * 1000
        assert rate.denominator == 1 and share.denominator == 1
        return Factor(int(rate), int(share))


def printed_fuel(heat_value: str, carbon: str, percent: int) -> PrintedFuel:
    """A row of the table: GJ, thousandths of tC per GJ, and the oxidation in percent."""
    return PrintedFuel(Fraction(heat_value), Fraction(carbon) / 1000, Fraction(percent, 100))


PRINTED_FUELS = {
    1: printed_fuel("26.700", "27.40", 94),  # anthracite
    2: printed_fuel("19.570", "26.10", 93),  # bituminous coal
    3: printed_fuel("11.900", "28.00", 96),  # lignite
    4: printed_fuel("26.344", "25.41", 90),  # washed coal
    5: printed_fuel("12.545", "25.41", 90),  # other washed coal
    6: printed_fuel("17.460", "33.60", 90),  # briquettes
    7: printed_fuel("28.435", "29.50", 93),  # coke
    8: printed_fuel("41.816", "20.10", 98),  # crude oil
    9: printed_fuel("41.816", "21.10", 98),  # fuel oil
    10: printed_fuel("43.070", "18.90", 98),  # gasoline
    11: printed_fuel("42.652", "20.20", 98),  # diesel
    12: printed_fuel("43.070", "19.60", 98),  # kerosene
    13: printed_fuel("44.200", "17.20", 98),  # liquefied natural gas
    14: printed_fuel("50.179", "17.20", 98),  # liquefied petroleum gas
    15: printed_fuel("45.998", "18.20", 98),  # refinery gas
    16: printed_fuel("33.453", "22.00", 98),  # coal tar
    17: printed_fuel("179.810", "13.58", 99),  # coke oven gas
    18: printed_fuel("33.000", "70.80", 99),  # blast furnace gas
    19: printed_fuel("84.000", "49.60", 99),  # converter gas
    20: printed_fuel("52.270", "12.20", 99),  # other coal gas
    21: printed_fuel("389.310", "15.30", 99),  # natural gas
}

# 0.11 tCO2 per GJ.
PRINTED_HEAT = Factor(1100, 1000)


def printed_table(question: Question) -> Factor | None:
    """Fuels and heat at tier D, in every year."""
    if question.tier != "D":
        return None
    if question.class_number == FUELS:
        return PRINTED_FUELS[question.item].factor()
    if question.class_number == HEAT:
        return PRINTED_HEAT
    return None


def nothing(question: Question) -> Factor | None:
    return None


@dataclass(frozen=True)
class Row:
    """A row of a plant list, lawful or not; the tier is any character."""

    class_number: int
    item: int
    tier: str
    first_year: int
    last_year: int
    rate: int
    share: int

    def fits(self, question: Question) -> bool:
        return (
            self.class_number == question.class_number
            and self.item == question.item
            and self.tier == question.tier
            and self.first_year <= question.year <= self.last_year
            and keeps_limits(question.class_number, Factor(self.rate, self.share))
        )


def plant_list(rows: list[Row]) -> Source:
    """The first row that fits answers."""

    def answer(question: Question) -> Factor | None:
        for row in rows:
            if row.fits(question):
                return Factor(row.rate, row.share)
        return None

    return answer


def pair(measured: Source, default: Source) -> Source:
    """Questions at tier M go to one source, those at tier D to the other."""
    return lambda question: (measured if question.tier == "M" else default)(question)


# ---- Steam ----

# Saturated steam: absolute pressure in kPa, enthalpy in kJ/kg.
STEAM_ROWS = [
    (1, "2513.8"), (2, "2533.2"), (3, "2545.2"), (4, "2554.1"), (5, "2561.2"), (6, "2567.1"),
    (7, "2572.2"), (8, "2576.7"), (9, "2580.8"), (10, "2584.4"), (15, "2598.9"), (20, "2609.6"),
    (25, "2618.1"), (30, "2625.3"), (40, "2636.8"), (50, "2645.0"), (60, "2653.6"), (70, "2660.2"),
    (80, "2666.0"), (90, "2671.1"), (100, "2675.7"), (120, "2683.8"), (140, "2690.8"), (160, "2696.8"),
    (180, "2702.1"), (200, "2706.9"), (250, "2717.2"), (300, "2725.5"), (350, "2732.5"), (400, "2738.5"),
    (450, "2743.8"), (500, "2748.5"), (600, "2756.4"), (700, "2762.9"), (800, "2768.4"), (900, "2773.0"),
    (1000, "2777.0"), (1100, "2780.4"), (1200, "2783.4"), (1300, "2786.0"), (1400, "2788.4"), (1500, "2790.4"),
    (1600, "2792.2"), (1700, "2793.8"), (1800, "2795.1"), (1900, "2796.4"), (2000, "2797.4"), (2200, "2799.1"),
    (2400, "2800.4"), (2600, "2801.2"), (2800, "2801.7"), (3000, "2801.9"), (3500, "2801.3"), (4000, "2799.4"),
    (5000, "2792.8"), (6000, "2783.3"), (7000, "2771.4"), (8000, "2757.5"), (9000, "2741.8"), (10000, "2724.4"),
    (11000, "2705.4"), (12000, "2684.8"), (13000, "2662.4"), (14000, "2638.3"), (15000, "2611.6"), (16000, "2582.7"),
    (17000, "2550.8"), (18000, "2514.4"), (19000, "2470.1"), (20000, "2413.9"), (21000, "2340.2"), (22000, "2192.5"),
]
STEAM = [(kilopascals, Fraction(enthalpy)) for kilopascals, enthalpy in STEAM_ROWS]


def steam_enthalpy(kilopascals: int) -> Fraction:
    """The enthalpy in kJ/kg at 1 to 22000 kPa, on the straight line between two rows."""
    for (low, low_enthalpy), (high, high_enthalpy) in zip(STEAM, STEAM[1:]):
        if low <= kilopascals <= high:
            way = Fraction(kilopascals - low, high - low)
            return low_enthalpy + way * (high_enthalpy - low_enthalpy)
    raise AssertionError("a lawful pressure lies between two rows")


# ---- Emissions in tonnes ----

CO2_PER_CARBON = Fraction(44, 12)
MISSING_PURITY = 980
FEED_WATER_CELSIUS = 20
FEED_WATER_ENTHALPY = Fraction("83.74")  # kJ/kg
WATER_HEAT = Fraction("4.1868")  # kJ per kg and degree


def thousandths(share: int) -> Fraction:
    return Fraction(share, 1000)


def fuel_tonnes(quantity: int, factor: Factor) -> Fraction:
    fuel = Fraction(quantity, 1000)  # t, or 10000 cubic metres
    carbon = fuel * factor.rate / 10**8  # tC
    return carbon * thousandths(factor.share) * CO2_PER_CARBON


def carbonate_tonnes(quantity: int, factor: Factor, purity: int | None) -> Fraction:
    carbonate = Fraction(quantity, 1000)  # t
    purity = MISSING_PURITY if purity is None else purity
    return carbonate * (Fraction(factor.rate) / 10**5) * thousandths(purity)


def bought_co2_tonnes(quantity: int, loss: int) -> Fraction:
    return Fraction(quantity, 1000) * thousandths(loss)


def removed(quantities: list[int]) -> Fraction:
    """The COD that wastewater lost between inlet and outlet, in kg."""
    cubic_metres, inlet, outlet, _, _ = quantities
    return Fraction(cubic_metres * (inlet - outlet), 1000)


def formed(quantities: list[int], factor: Factor) -> Fraction:
    """The methane that formed, in kg: sludge leaves with its COD before methane can form."""
    sludge = quantities[3]
    return (removed(quantities) - sludge) * Fraction(factor.rate, 10**5)


def wastewater_tonnes(quantities: list[int], factor: Factor) -> Fraction:
    recovered = quantities[4]
    methane = formed(quantities, factor) - recovered  # kg
    return methane / 1000 * Fraction(factor.share, 10)


def power_tonnes(quantity: int, factor: Factor) -> Fraction:
    megawatt_hours = Fraction(quantity, 1000)
    return megawatt_hours * Fraction(factor.rate, 10**4)


def heat_gigajoules(item: int, quantities: list[int]) -> Fraction:
    if item == 0:
        return Fraction(quantities[0], 1000)
    tonnes = Fraction(quantities[0], 1000)
    if item == 1:
        celsius = Fraction(quantities[1], 100)
        return tonnes * (celsius - FEED_WATER_CELSIUS) * WATER_HEAT / 1000
    return tonnes * (steam_enthalpy(quantities[1]) - FEED_WATER_ENTHALPY) / 1000


def exact_tonnes(record: Record, quantities: list[int], factor: Factor | None) -> Fraction:
    """The exact emission of a record that no rule refuses, in tonnes of CO2 equivalent."""
    if record.kind == expected.FUEL:
        return fuel_tonnes(quantities[0], factor)
    if record.kind == expected.CARBONATE:
        return carbonate_tonnes(quantities[0], factor, record.share)
    if record.kind == expected.BOUGHT_CO2:
        return bought_co2_tonnes(quantities[0], record.share)
    if record.kind == expected.WASTEWATER:
        return wastewater_tonnes(quantities, factor)
    if record.kind in (expected.POWER_BOUGHT, expected.POWER_SOLD):
        return power_tonnes(quantities[0], factor)
    return heat_gigajoules(record.item, quantities) * Fraction(factor.rate, 10**4)


def exact_grams(record: Record, quantities: list[int], factor: Factor | None) -> Fraction:
    return exact_tonnes(record, quantities, factor) * 10**6


def nearest(exact: Fraction) -> int:
    """The nearest whole number, a tie upwards."""
    return floor(exact + Fraction(1, 2))


# ---- Entries ----


@dataclass(frozen=True)
class Entry:
    record: Record
    quantities: list[int]
    factor: Factor | None
    exact: Fraction
    grams: int


def entry_of(frame: bytes, source: Source) -> Entry:
    """What a frame with a source comes to, or the first refusal: 1 to 10 of the record, then 11, 12, 13."""
    record = expected.record_of(frame)
    quantities = expected.quantities(record)
    if record.kind == expected.WASTEWATER:
        _, inlet, outlet, sludge, _ = quantities
        if outlet > inlet:
            raise Refused(expected.RECORD, 11, 1)
        if sludge > removed(quantities):
            raise Refused(expected.RECORD, 11, 2)
    question = question_of(record)
    factor = None
    if question is not None:
        factor = source(question)
        if factor is None:
            raise Refused(FACTOR, 12, 0)
        assert keeps_limits(question.class_number, factor)
    if record.kind == expected.WASTEWATER and quantities[4] > formed(quantities, factor):
        raise Refused(FACTOR, 13, 0)
    exact = exact_grams(record, quantities, factor)
    assert exact >= 0
    return Entry(record, quantities, factor, exact, nearest(exact))
