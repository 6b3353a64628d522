"""Checks the second calculation itself: the figures that the specification marks, the least and greatest inputs, and on random lists of
both kinds demand 3 and the bounds of each pathway's guideline.

    python3 tests/check_second.py 300 1        300 lists from seed 1

It runs no Rattle code. Status 1 when anything does not hold.
"""
import collections
import itertools
import random
import sys

from guideline_records import AGES, HOUSE_FACTORS, Case, answer_of, random_case, random_classes, random_decimal, random_valid_case
from second import steps
from second.decimals import DOWN, UP, ZERO, Decimal, add, divide, keeps_input_rule, multiply, working_form
from second.guideline import PATHWAY, guideline
from second.promises import guideline_faults, sum_faults
from second.sums import sums
from second.terms import (CHEMICAL, CONCENTRATION, CONTAMINANT_VALUES, INTAKE, RADIONUCLIDE, SCENARIO_FACTORS, SIDES, SOIL, TABLE, WATER,
                          formulas_for, inputs_of, rounded_factor, split, terms_of)
from site_example import concentration_case, skin_case, tritium_case
from site_parts import MEDIA, TWO_AGES

OFFICE_WORKER = {
    "EF": Decimal(250, 0), "ED": Decimal(25, 0), "BW": Decimal(70, 0), "AT": Decimal(70, 0), "IR": Decimal(50, 0),
    "IRA": Decimal(20, 0), "PEF": Decimal(428, 7), "TR": Decimal(1, -6), "THI": Decimal(1, 0),
}


def office_figures():
    """Office worker in soil, one chemical with SFo 1, RfDo 0.02 and C 2."""
    record = {"class": 1, "id": 1, "SFo": Decimal(1, 0), "RfDo": Decimal(2, -2), "C": Decimal(2, 0)}
    case = Case(1, OFFICE_WORKER, record)
    term = terms_of(1, 1, "risk", inputs_of(case.scenario, case.record), UP)[0]
    answer = guideline(case.scenario, 1, case.record)
    total = sums(case.scenario, 1, [case.record])
    yield "upper term", term, (174727426, -15)
    yield "risk guidelines", answer.guidelines[:4], ((572319997, -8), ZERO, ZERO, (572319997, -8))
    yield "hazard guidelines", answer.guidelines[4:], ((408799998, -4), ZERO, ZERO, (408799998, -4))
    yield "risk sums", total.sums[:2], ((349454850, -15), (349454852, -15))
    yield "hazard sums", total.sums[2:], ((489236790, -13), (489236792, -13))
    yield "verdicts", total.verdicts, (1, 1)


def tritium_figures():
    """A house with a shower, in water; tritium with SFo 7.2 x 10^-14, SFi 9.6 x 10^-14 and C 500."""
    case = tritium_case()
    answer = guideline(case.scenario, case.medium, case.record)
    total = sums(case.scenario, case.medium, [case.record])
    risk = (661375661, -6), (668791421, -4), (277918126, -3), (653359672, -6)
    yield "tritium: risk guidelines", answer.guidelines[:4], risk
    yield "tritium: hazard guidelines", answer.guidelines[4:], (ZERO,) * 4
    yield "tritium: sums", total.sums, ((765275260, -15), (765275270, -15), ZERO, ZERO)
    yield "tritium: verdicts", total.verdicts, (1, 4)
    yield from hours_figures(inputs_of(case.scenario, case.record))


def hours_figures(inputs):
    """H of the example, in each direction, without ET, with a zero factor in its second part, and without either part."""
    no_et, no_n = {**inputs, "ET": ZERO}, {**inputs, "N": ZERO}
    yield "H up", rounded_factor("H", inputs, UP), (266904093, -9)
    yield "H down", rounded_factor("H", inputs, DOWN), (266904092, -9)
    yield "H up, ET zero", rounded_factor("H", no_et, UP), (999040921, -10)
    yield "H up, N zero", rounded_factor("H", no_n, UP), (167000000, -9)
    yield "H up, ET and N zero", rounded_factor("H", {**no_et, "N": ZERO}, UP), ZERO


def saturation_figures():
    """Office worker in soil; a chemical with SFi 0.029, RfDi 0.0017 and VF 19000, without a saturation, with 0.5 and with 50."""
    record = {"class": 1, "id": 1, "SFi": Decimal(29, -3), "RfDi": Decimal(17, -4), "VF": Decimal(19, 3)}
    risk, hazard = (937416517, -8), (165052265, -6)
    capped = {ZERO: (risk, hazard), Decimal(5, -1): ((500000000, -9),) * 2, Decimal(50, 0): (risk, (500000000, -7))}
    for saturation, columns in capped.items():
        case = Case(1, OFFICE_WORKER, {**record, "Csat": saturation})
        guidelines = guideline(case.scenario, 1, case.record).guidelines
        what = f"saturation {saturation.m}e{saturation.e}"
        yield f"{what}: inhalation of risk and hazard", (guidelines[1], guidelines[5]), columns
        yield f"{what}: totals", (guidelines[3], guidelines[7]), (risk, hazard)
        yield f"{what}: the other columns", {guidelines[column] for column in (0, 2, 4, 6)}, {ZERO}


def skin_figures():
    """Office worker in soil with a child and an adult; a chemical with SFo 1, RfDo 0.02 and ABS 0.1."""
    case = skin_case()
    answer = guideline(case.scenario, case.medium, case.record)
    yield "soil on skin: risk guidelines", answer.guidelines[:4], ((572319997, -8), ZERO, (145170454, -8), (115797992, -8))
    yield "soil on skin: hazard guidelines", answer.guidelines[4:], ((408799998, -4), ZERO, (103693181, -4), (827128518, -5))
    yield from ages_figures(inputs_of(case.scenario, case.record))


def ages_figures(inputs):
    """G of the example, of one age alone and of none; and in each direction that of another child and adult."""
    for direction in (DOWN, UP):
        yield f"G {direction}", rounded_factor("G", inputs, direction), (880000000, -3)
        for age, known in (("adult", (280000000, -3)), ("child", (600000000, -3))):
            for name in AGES[age]:
                yield f"G {direction}, {name} zero", rounded_factor("G", {**inputs, name: ZERO}, direction), known
    yield "G up, childBW and adultSA zero", rounded_factor("G", {**inputs, "childBW": ZERO, "adultSA": ZERO}, UP), ZERO
    # 2500 x 180 x 6 / 16 = 168750, and 5000 x 180 x 64 / 70 = 822857.142857...
    yield "G up, 004", rounded_factor("G", {**inputs, **TWO_AGES}, UP), (991607143, -3)
    yield "G down, 004", rounded_factor("G", {**inputs, **TWO_AGES}, DOWN), (991607142, -3)


# By concentration, in soil and in water: the guideline of inhalation and its upper term, then the two sums, of risk and of hazard.
IN_MEDIA = {
    SOIL: ((((298737133, -7), (334742450, -16)), ((669484892, -16), (669484900, -16))),
           (((249658889, -5), (400546523, -12)), ((801093036, -12), (801093046, -12)))),
    WATER: ((((314461538, -11), (318003914, -12)), ((636007826, -12), (636007828, -12))),
            (((262799999, -9), (380517504, -8)), ((761035006, -8), (761035008, -8)))),
}


def concentration_figures():
    """Office worker of kind 6 with A 8, in soil and in water; a chemical with U 7.8 x 10^-6, Q 0.03, VF 19000 and C 2."""
    for medium, by_side in IN_MEDIA.items():
        case, what = concentration_case(medium), f"by concentration, {MEDIA[medium]}"
        inputs = inputs_of(case.scenario, case.record)
        answer, total = guideline(case.scenario, medium, case.record), sums(case.scenario, medium, [case.record])
        for place, (side, ((found, term), both_sums)) in enumerate(zip(SIDES, by_side)):
            yield f"{what}: {side} guidelines", answer.guidelines[4 * place:4 * place + 4], (ZERO, found, ZERO, found)
            yield f"{what}: {side} upper terms", terms_of(medium, CHEMICAL, side, inputs, UP), [ZERO, term, ZERO]
            yield f"{what}: {side} sums", total.sums[2 * place:2 * place + 2], both_sums
        yield f"{what}: verdicts", total.verdicts, (1, 1) if medium == SOIL else (2, 2)
        for names, changes in (("kind 1", {"kind": INTAKE}), ("A zero", {"A": ZERO}), ("U, Q zero", {"U": ZERO, "Q": ZERO})):
            yield f"{what}: {names}, no pathway", answer_of(case.changed(**changes)).refusal, PATHWAY


def marked_figures():
    """(name, computed, printed in the specification)"""
    one, two, three, seven = (working_form(Decimal(n, 0)) for n in (1, 2, 3, 7))
    nines, tiny = Decimal(999_999_999, 0), working_form(Decimal(1, -20))
    yield "1 / 3 down", divide(one, three, DOWN), (333333333, -9)
    yield "1 / 3 up", divide(one, three, UP), (333333334, -9)
    yield "2 / 3 up", divide(two, three, UP), (666666667, -9)
    yield "999999999 * 999999999 down", multiply(nines, nines, DOWN), (999999998, 9)
    yield "999999999 * 999999999 up", multiply(nines, nines, UP), (999999999, 9)
    for direction in (DOWN, UP):
        yield f"999999999 + 1 {direction}", add(nines, one, direction), (100000000, 1)
        yield f"0 + 7 {direction}", add(ZERO, seven, direction), (700000000, -8)
    yield "1 + 10^-20 down", add(one, tiny, DOWN), (100000000, -8)
    yield "1 + 10^-20 up", add(one, tiny, UP), (100000001, -8)
    yield from office_figures()
    yield from tritium_figures()
    yield from saturation_figures()
    yield from skin_figures()
    yield from concentration_figures()


def extreme_cases():
    """For each formula the least factors before the stroke and the greatest after it, and the reverse; each target, each C.

    B is least where VF and PEF are greatest, H where L and W are, G where the weights of the ages are. A decimal on the way with an e
    outside -999 to 999 is an error (second/steps.py).
    """
    ends = Decimal(1, -20), Decimal(999_999_999, 20)
    for kind, (medium, klass, side) in itertools.product((INTAKE, CONCENTRATION), TABLE):
        formulas = filter(None, formulas_for(kind, medium, klass, side))
        for formula, (before, after), target, c in itertools.product(formulas, (ends, ends[::-1]), ends, ends):
            values = {"kind": kind, **dict.fromkeys(SCENARIO_FACTORS + CONTAMINANT_VALUES, before)}
            values.update(dict.fromkeys([*split(formula)[1], "VF", "PEF", *HOUSE_FACTORS, "childBW", "adultBW"], after))
            values.update({"TR": target, "THI": target, "C": c})
            yield Case(medium, values, {**values, "class": klass, "id": 1})


def extreme_wrong():
    """What does not hold of these: every extreme case is accepted and keeps its bounds, and an e of 1990 on the way is an error.

    Its saturation is the least or the greatest decimal; without one the inhalation guidelines keep theirs too.
    """
    for case in extreme_cases():
        what = f"{case.medium} {case.scenario} {case.record}"
        for record in (case.record, {**case.record, "Csat": ZERO}):
            answer = guideline(case.scenario, case.medium, record)
            if answer.refusal:
                yield f"refused: {what}"
            yield from (f"{fault}: {what}" for fault in guideline_faults(case.scenario, case.medium, record, answer))
        if sums(case.scenario, case.medium, [case.record]).refusal:
            yield f"refused: {what}"
    try:
        yield f"no error: {steps.multiply(Decimal(100_000_000, 991), Decimal(100_000_000, 991), UP)}"
    except AssertionError:
        pass


def random_list(source):
    """A case whose scenario and medium all records share, and 1 to 120 records in the order of their ids.

    In half of the lists SFo and IR are known, so that each record has a pathway. A quarter of them are in soil and on skin; half of them
    have A, U and Q, and of these two of three are by concentration.
    """
    on_skin, in_air = source.randrange(4) == 1, source.randrange(2) == 0
    classes = (RADIONUCLIDE, CHEMICAL) if on_skin else random_classes(source)
    first = random_valid_case(source, classes[-1:], on_skin, in_air)
    first.medium = SOIL if on_skin else first.medium
    count = source.choice((1, 1, 2, 3, 10, 120))
    makers = [random_case if source.randrange(40) == 0 else random_valid_case for _ in range(count)]
    records = [make(source, classes, on_skin, in_air).record for make in makers]
    if source.randrange(2):
        first.scenario["IR"] = random_decimal(source)
        records = [{**record, "SFo": random_decimal(source)} for record in records]
    for number, record in enumerate(records, 1):
        record["id"] = record["id"] and number * 5
        one = guideline(first.scenario, first.medium, record)
        total = one.guidelines[source.choice((3, 7))]
        # At its guideline a single contaminant brings the sum close to the target.
        near = Decimal(total.m + source.randint(0, 2), total.e)
        if count == 1 and total.m != 0 and keeps_input_rule(near) and source.randrange(3):
            record["C"] = near
        if source.randrange(20) == 0:
            record["C"] = ZERO
    if source.randrange(30) == 0 and count > 1:
        records[-1]["id"] = records[-2]["id"]
    return first, records


def list_faults(case, records, answer):
    """What an accepted list breaks: its sums and verdicts, and the guidelines of each of its records."""
    faults = sum_faults(case.scenario, case.medium, records, answer)
    for record in records:
        one = guideline(case.scenario, case.medium, record)
        faults += guideline_faults(case.scenario, case.medium, record, one)
    return faults


def main():
    wrong = 0
    for name, computed, printed in marked_figures():
        good = computed == printed
        wrong += not good
        print(f"{name}: {'as printed' if good else f'{computed} in place of {printed}'}")
    faults = list(extreme_wrong())
    wrong += len(faults)
    print("\n".join(faults) or "least and greatest inputs: every e on the way from -999 to 999")
    source = random.Random(int(sys.argv[2]))
    kinds, refusals, verdicts = collections.Counter(), collections.Counter(), collections.Counter()
    for _ in range(int(sys.argv[1])):
        case, records = random_list(source)
        answer = sums(case.scenario, case.medium, records)
        kinds[case.scenario["kind"]] += 1
        refusals[answer.refusal] += 1
        if answer.refusal == 0:
            verdicts.update(answer.verdicts)
            faults = list_faults(case, records, answer)
            wrong += bool(faults)
            for fault in faults:
                print(f"{fault}: {case.medium} {case.scenario} {records}")
    print(f"lists by kind: {dict(sorted(kinds.items()))}; by refusal: {dict(sorted(refusals.items()))}; "
          f"sides by verdict: {dict(sorted(verdicts.items()))}")
    print(f"{wrong} wrong")
    return 1 if wrong else 0


if __name__ == "__main__":
    sys.exit(main())
