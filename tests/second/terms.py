"""The terms of each pathway, rounded and exact (docs/SPECIFICATION.md, "Terms")."""
import functools
from fractions import Fraction

from .decimals import OPPOSITE, ZERO, Decimal, value
from .steps import add, divide, multiply, working_form

SOIL, WATER = 1, 2
CHEMICAL, RADIONUCLIDE, TRITIUM = 1, 2, 3
RISK, HAZARD = "risk", "hazard"
SIDES = (RISK, HAZARD)
# The two kinds of a scenario, by the number of its header's kind: the inhalation of a chemical is counted by intake, or by concentration.
INTAKE, CONCENTRATION = 1, 6

SCENARIO_FACTORS = ("EF", "ED", "BW", "AT", "IR", "IRA", "PEF", "ET", "RF", "SA", "TR", "THI",
                    "M", "F", "N", "S", "V", "L", "W", "K", "A",
                    "childSA", "childEF", "childED", "childBW", "adultSA", "adultEF", "adultED", "adultBW", "AF")
CONTAMINANT_VALUES = ("SFo", "SFi", "SFx", "RfDo", "RfDi", "VF", "PC", "C", "Csat", "U", "Q", "ABS")

CONSTANTS = {
    "1": Decimal(1, 0),
    "10^-6": Decimal(1, -6),
    "10^-3": Decimal(1, -3),
    "0.5": Decimal(5, -1),
    "0.000114": Decimal(114, -6),
    "365": Decimal(365, 0),
    "10^3": Decimal(1, 3),
    "24": Decimal(24, 0),
}

# The factors that are worked out, each by its parts, which are formulas too: B = 1/VF + 1/PEF, H = ET + (F, N, S, V / L, W), and
# G = (SA, EF, ED / BW) of the child plus the same of the adult.
WORKED_OUT = {
    "B": ("1 / VF", "1 / PEF"),
    "H": ("ET", "F, N, S, V / L, W"),
    "G": ("childSA, childEF, childED / childBW", "adultSA, adultEF, adultED / adultBW"),
}

# The inhalation of a chemical by the kind of the scenario and by side. AIR stands for its factor from soil or water to the air, which goes by the medium.
INHALATION = {
    (INTAKE, RISK): "SFi, IRA, AIR, EF, ED / BW, AT, 365",
    (INTAKE, HAZARD): "IRA, AIR, EF / RfDi, BW, 365",
    (CONCENTRATION, RISK): "U, 10^3, AIR, A, EF, ED / AT, 365, 24",
    (CONCENTRATION, HAZARD): "AIR, A, EF / Q, 365, 24",
}
AIR = {SOIL: "B", WATER: "0.5"}
BY_KIND = "by kind"

# The formulas as the specification prints them, by medium, class and side, in the order of the pathways; None: no such pathway; BY_KIND:
# the inhalation above.
TABLE = {
    (SOIL, CHEMICAL, RISK): (
        "SFo, IR, 10^-6, EF, ED / BW, AT, 365",
        BY_KIND,
        "SFo, ABS, AF, 10^-6, G / AT, 365",
    ),
    (SOIL, CHEMICAL, HAZARD): (
        "IR, 10^-6, EF / RfDo, BW, 365",
        BY_KIND,
        "ABS, AF, 10^-6, G / RfDo, ED, 365",
    ),
    (SOIL, RADIONUCLIDE, RISK): (
        "SFo, IR, 10^-6, EF, ED",
        "SFi, IRA, EF, ED / PEF",
        "SFx, ET, RF, 0.000114, EF, ED",
    ),
    (SOIL, RADIONUCLIDE, HAZARD): (None, None, None),
    (WATER, CHEMICAL, RISK): (
        "SFo, IR, EF, ED / BW, AT, 365",
        BY_KIND,
        "SFo, SA, PC, ET, 10^-3, EF, ED / BW, AT, 365",
    ),
    (WATER, CHEMICAL, HAZARD): (
        "IR, EF / RfDo, BW, 365",
        BY_KIND,
        "SA, PC, ET, 10^-3, EF / RfDo, BW, 365",
    ),
    (WATER, RADIONUCLIDE, RISK): (
        "SFo, IR, EF, ED",
        None,
        None,
    ),
    (WATER, RADIONUCLIDE, HAZARD): (None, None, None),
    (SOIL, TRITIUM, RISK): (None, None, None),
    (SOIL, TRITIUM, HAZARD): (None, None, None),
    (WATER, TRITIUM, RISK): (
        "SFo, IR, EF, ED",
        "SFi, IRA, M, 10^-3, H, EF, ED",
        "SFo, SA, K, ET, 10^3, EF, ED",
    ),
    (WATER, TRITIUM, HAZARD): (None, None, None),
}


@functools.cache
def formulas_for(kind, medium, klass, side):
    """The formulas of the three pathways in a scenario of this kind."""
    inhaled = INHALATION[kind, side].replace("AIR", AIR[medium])
    return tuple(inhaled if formula == BY_KIND else formula for formula in TABLE[medium, klass, side])


def split(formula):
    """The names before the stroke and those after it."""
    before, _, after = formula.partition("/")
    return before.strip().split(", "), after.strip().split(", ") if after else []


def inputs_of(scenario, record):
    """The scenario's kind, and every factor by its name, as given, but for those that are worked out."""
    return {**CONSTANTS, **scenario, **{name: record[name] for name in CONTAMINANT_VALUES}}


def is_known(name, inputs):
    """Whether a factor is not zero. One that is worked out is zero when all of its parts are absent."""
    if name in WORKED_OUT:
        return any(is_present(part, inputs) for part in WORKED_OUT[name])
    return inputs[name].m != 0


def is_present(formula, inputs):
    """A pathway is absent when a factor it names (B, H and G among them) is zero; nothing else makes it absent."""
    if formula is None:
        return False
    before, after = split(formula)
    return all(is_known(name, inputs) for name in before + after)


def rounded_factor(name, inputs, direction):
    """An input in its working form; B, H or G: its parts, as terms, and their sum are rounded in this direction."""
    if name in WORKED_OUT:
        return term_sum([term(part, inputs, direction) for part in WORKED_OUT[name]], direction)
    return working_form(inputs[name])


def rounded_product(names, inputs, direction):
    """The factors multiplied in the order shown."""
    factors = [rounded_factor(name, inputs, direction) for name in names]
    product = factors[0]
    for factor in factors[1:]:
        product = multiply(product, factor, direction)
    return product


def term(formula, inputs, direction):
    """The upper term (direction up) or the lower term (direction down); (0, 0) when the pathway is absent."""
    if not is_present(formula, inputs):
        return ZERO
    before, after = split(formula)
    # The products after the stroke are rounded the other way. B, H and G stand before the stroke only.
    above = rounded_product(before, inputs, direction)
    if not after:
        return above
    return divide(above, rounded_product(after, inputs, OPPOSITE[direction]), direction)


def terms_of(medium, klass, side, inputs, direction):
    return [term(formula, inputs, direction) for formula in formulas_for(inputs["kind"], medium, klass, side)]


def term_sum(terms, direction):
    """Upper terms are added up, lower ones down, in pathway order; an absent one, which is zero, is skipped."""
    total = ZERO
    for one in terms:
        if one != ZERO:
            total = one if total == ZERO else add(total, one, direction)
    return total


def has_pathway(medium, klass, side, inputs):
    return any(is_present(formula, inputs) for formula in formulas_for(inputs["kind"], medium, klass, side))


def exact_factor(name, inputs):
    if name in WORKED_OUT:
        return sum((exact_term(part, inputs) for part in WORKED_OUT[name]), Fraction(0))
    return value(inputs[name])


def exact_term(formula, inputs):
    """The value of the formula with no step rounded; an absent term counts 0."""
    if not is_present(formula, inputs):
        return Fraction(0)
    before, after = split(formula)
    exact = Fraction(1)
    for name in before:
        exact *= exact_factor(name, inputs)
    for name in after:
        exact /= exact_factor(name, inputs)
    return exact


def exact_term_sum(medium, klass, side, inputs):
    return sum((exact_term(formula, inputs) for formula in formulas_for(inputs["kind"], medium, klass, side)), Fraction(0))
