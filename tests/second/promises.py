"""The bounds of demand 3, and those of each pathway's guideline, checked exactly on an accepted case.

Each function gives the list of what does not hold.
"""
from fractions import Fraction

from .decimals import value
from .guideline import TARGET
from .sums import ABOVE, NONE, UNDECIDED, WITHIN
from .terms import CHEMICAL, SIDES, SOIL, exact_term, exact_term_sum, formulas_for, has_pathway, inputs_of

GUIDELINE_DISTANCE = Fraction(2, 10_000_000)
SUM_DISTANCE = Fraction(2, 1_000_000)


def guideline_faults(scenario, medium, record, answer):
    """What the guidelines of each side break: those of the pathways, and the total."""
    return column_faults(scenario, medium, record, answer) + total_faults(scenario, medium, record, answer)


def column_faults(scenario, medium, record, answer):
    """What the guideline of each pathway breaks.

    It is above zero exactly where the pathway is there; at it the pathway does not pass the target, and stays at most
    GUIDELINE_DISTANCE below it. Where a saturation caps it, it may stay further below: it is then worth the saturation.
    """
    inputs = inputs_of(scenario, record)
    faults = []
    for number, side in enumerate(SIDES):
        target = value(scenario[TARGET[side]])
        for column, formula in enumerate(formulas_for(scenario["kind"], medium, record["class"], side)):
            found, term = value(answer.guidelines[4 * number + column]), exact_term(formula, inputs)
            what = f"{side}: guideline of pathway {column + 1}"
            if (found > 0) != (term > 0):
                faults.append(f"{what} above zero though it is absent, or zero though it is there")
            if found * term > target:
                faults.append(f"{what} passes the target")
            if term > 0:
                faults += distance_faults(what, found, target * (1 - GUIDELINE_DISTANCE) / term, cap_of(medium, record, column))
    return faults


def cap_of(medium, record, column):
    """What the saturation of a chemical in soil is worth, for its inhalation; None where there is none or it is ignored."""
    counts = (medium, record["class"], column) == (SOIL, CHEMICAL, 1) and record["Csat"].m != 0
    return value(record["Csat"]) if counts else None


def distance_faults(what, found, least, cap):
    """A guideline is at least the least that its distance allows, or, where that is more than the cap, the cap itself."""
    if cap is not None and found > cap:
        return [f"{what} above the saturation"]
    if found < (least if cap is None else min(least, cap)):
        return [f"{what} too far below the target"]
    return []


def total_faults(scenario, medium, record, answer):
    """Demand 3, first sentence: what the total guideline of each side breaks. A saturation does not move it."""
    inputs = inputs_of(scenario, record)
    faults = []
    for side, total in zip(SIDES, (answer.guidelines[3], answer.guidelines[7])):
        present = has_pathway(medium, record["class"], side, inputs)
        if (total.m > 0) != present:
            faults.append(f"{side}: total guideline above zero though no pathway, or zero though there is one")
        if not present:
            continue
        target = value(scenario[TARGET[side]])
        at_guideline = value(total) * exact_term_sum(medium, record["class"], side, inputs)
        if at_guideline > target:
            faults.append(f"{side}: above the target at the total guideline")
        if at_guideline < target * (1 - GUIDELINE_DISTANCE):
            faults.append(f"{side}: too far below the target at the total guideline")
    return faults


def sum_faults(scenario, medium, records, answer):
    """Demand 3, the rest: what the reported sums and the verdict of each side break."""
    faults = []
    for place, side in enumerate(SIDES):
        lower, upper = (value(d) for d in answer.sums[2 * place:2 * place + 2])
        target = value(scenario[TARGET[side]])
        exact, present = Fraction(0), False
        for record in records:
            inputs = inputs_of(scenario, record)
            exact += value(record["C"]) * exact_term_sum(medium, record["class"], side, inputs)
            present = present or has_pathway(medium, record["class"], side, inputs)
        if not lower <= exact <= upper:
            faults.append(f"{side}: exact sum outside the reported sums")
        if max(exact - lower, upper - exact) > SUM_DISTANCE * exact:
            faults.append(f"{side}: reported sum too far from the exact sum")
        faults += verdict_faults(side, answer.verdicts[place], present, exact, target)
    return faults


def verdict_faults(side, verdict, present, exact, target):
    holds = {
        NONE: not present,
        WITHIN: exact <= target,
        ABOVE: exact > target,
        UNDECIDED: abs(target - exact) <= SUM_DISTANCE * exact,
    }
    if not holds.get(verdict, False) or (not present and verdict != NONE):
        return [f"{side}: verdict {verdict} does not hold"]
    return []
