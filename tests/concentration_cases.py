"""Cases of the single guideline by concentration, and by intake with A, U and Q, which it ignores; those that are stored."""
import itertools
import random

from guideline_maker import DEPENDS_ON, full_case, same_value
from guideline_records import HARD_NUMBERS, HOUSE_FACTORS, IN_AIR, NOT_IN_AIR, moved, random_case, uncapped, with_carry_in_air
from second.decimals import DOWN, UP, ZERO, Decimal
from second.terms import (CHEMICAL, CONCENTRATION, CONTAMINANT_VALUES, INTAKE, RADIONUCLIDE, SIDES, SOIL, TRITIUM, WATER, inputs_of,
                          terms_of)
from site_parts import TWO_AGES

SEED = 20261127
RANDOM_CASES = 8

# What the inhalation of a chemical needs by concentration: U for risk or Q for hazard, A in any case, in soil VF or PEF.
NEEDED = {SOIL: ("U", "Q", "A", "VF", "PEF"), WATER: ("U", "Q", "A")}
# What it needs by intake alone.
BY_INTAKE = ("SFi", "RfDi", "IRA")
LEAST, GREATEST = Decimal(1, -20), Decimal(999_999_999, 20)


def is_inhaled(medium, known):
    """Whether a chemical is inhaled by concentration, on either side, by what is known of NEEDED."""
    return "A" in known and bool({"U", "Q"} & set(known)) and (medium == WATER or bool({"VF", "PEF"} & set(known)))


def air_case(medium, klass=CHEMICAL):
    """A case by concentration in which every factor is known but those of soil on skin."""
    return full_case(medium, klass).changed(kind=CONCENTRATION, A=Decimal(8, 0), U=Decimal(78, -7), Q=Decimal(3, -2))


def inhaled_alone(case):
    """The case of a chemical without ingestion and skin, and without what inhalation by intake needs."""
    return case.changed(**dict.fromkeys(("IR", "SA", "AF", *BY_INTAKE), ZERO))


def unit_air_case(risk, hazard, saturation=ZERO, medium=SOIL):
    """A chemical of which inhalation is the only pathway, by concentration, with terms 1, so that its guidelines are these targets."""
    ones = dict.fromkeys(("ED", "BW", "AT", "VF", "C"), Decimal(1, 0))
    in_air = {"A": Decimal(24, 0), "U": Decimal(1, -3), "Q": Decimal(1, 0)}
    if medium == WATER:
        in_air.update(U=Decimal(2, -3), Q=Decimal(5, -1))
    return inhaled_alone(air_case(medium)).changed(**ones, **in_air, EF=Decimal(365, 0), PEF=ZERO, TR=risk, THI=hazard, Csat=saturation)


def missing_in_air():
    """None, one, two or all of what inhalation needs missing, where it is the only pathway: what it needs by intake is there in every
    second case."""
    number = itertools.count()
    for medium, names in NEEDED.items():
        for missing in itertools.chain(*(itertools.combinations(names, size) for size in (0, 1, 2, len(names)))):
            case = air_case(medium).changed(IR=ZERO, SA=ZERO, **dict.fromkeys(missing, ZERO))
            yield inhaled_alone(case) if next(number) % 2 else case


def both_kinds():
    """Each class in each medium, of either kind; without A, which changes a chemical by concentration alone; a chemical by concentration
    without what intake needs."""
    for medium, klass in DEPENDS_ON:
        yield from (air_case(medium, klass).changed(kind=kind) for kind in (INTAKE, CONCENTRATION))
        yield air_case(medium, klass).changed(A=ZERO)
    for medium in NEEDED:
        yield air_case(medium).changed(**dict.fromkeys(BY_INTAKE, ZERO))
        # Of kind 1 A, U and Q make no pathway; without Q or U one side is left, without both other pathways are.
        yield inhaled_alone(air_case(medium)).changed(kind=INTAKE)
        yield from (air_case(medium).changed(**dict.fromkeys(names, ZERO)) for names in (("U",), ("Q",), ("U", "Q")))
    yield air_case(SOIL).changed(**TWO_AGES, ABS=Decimal(13, -2))


def ignored_in_air():
    """A, U and Q of kind 1 and of the other classes, and what inhalation by intake needs, of kind 6: they move nothing."""
    for d in (LEAST, GREATEST):
        for medium, klass in DEPENDS_ON:
            kind = INTAKE if klass == CHEMICAL else CONCENTRATION
            yield air_case(medium, klass).changed(kind=kind, **dict.fromkeys(IN_AIR, d))
        for medium in NEEDED:
            yield air_case(medium).changed(**dict.fromkeys(BY_INTAKE, d))


def extreme_in_air():
    """Inhalation by concentration at its ends, alone and beside all others, and one value written in several ways."""
    divisors = ("AT", "Q", "VF", "PEF")
    for medium, (d, under) in itertools.product(NEEDED, ((LEAST, GREATEST), (GREATEST, LEAST))):
        case = air_case(medium).changed(Csat=ZERO)
        ends = {**dict.fromkeys(("U", "A", "EF", "ED"), d), **dict.fromkeys(divisors, under)}
        yield case.changed(**dict.fromkeys(IN_AIR, d))
        yield inhaled_alone(case).changed(**ends, TR=d, THI=d, C=d)
        everything = {**dict.fromkeys((*NOT_IN_AIR, *IN_AIR), d), "Csat": ZERO}
        yield case.changed(**{**everything, **dict.fromkeys(divisors, under)})
    for shift in (1, 5):
        case = air_case(SOIL)
        decimals = {**case.scenario, **case.record}
        yield case.changed(**{name: same_value(decimals[name], shift) for name in IN_AIR})


def hard_in_air(source):
    """Inhalation by concentration alone, without end, with terms that are not the same up and down, of which each unit shows in the
    guidelines of at least one side."""
    numbers = [m for m in HARD_NUMBERS if m >= 10**8]
    targets = dict.fromkeys(("TR", "THI"), Decimal(987_654_321, -8))
    while True:
        medium = source.choice(list(NEEDED))
        names = ["U", "Q", "A", "EF", "ED", "AT", "VF", *(("PEF",) if source.randrange(2) else ())]
        hard = {name: Decimal(source.choice((*numbers, source.randint(10**8, 10**9 - 1))), source.choice((-9, -8, -8))) for name in names}
        hard.update({name: Decimal(source.choice((3, 7, 24, 70)), 0) for name in ("A", "AT", "Q", "VF") if source.randrange(4) == 0})
        case = inhaled_alone(air_case(medium)).changed(**{"PEF": ZERO, "Csat": ZERO, "C": Decimal(1, 0), **targets, **hard})
        inputs = inputs_of(case.scenario, case.record)
        terms = [[terms_of(medium, CHEMICAL, side, inputs, direction)[1] for direction in (UP, DOWN)] for side in SIDES]
        if all(up != down for up, down in terms) and any(up.m < 2 * 10**8 for up, _ in terms):
            yield case


def capped_in_air():
    """A saturation beside the inhalation guidelines by concentration, between exact ones, and where inhalation is absent or in water."""
    case = air_case(SOIL).changed(Csat=ZERO)
    for found, steps in itertools.product(uncapped(case), (-1, 0, 1)):
        yield case.changed(Csat=moved(found, steps))
    two, three = Decimal(2, 0), Decimal(3, 0)
    for saturation in (LEAST, two, same_value(two, 8), Decimal(25, -1), three, GREATEST):
        yield unit_air_case(two, three, saturation)
    yield case.changed(A=ZERO, Csat=Decimal(1, -3))
    yield case.changed(U=ZERO, Csat=Decimal(1, -3))
    yield unit_air_case(two, three, LEAST, WATER)


def refused_in_air():
    """Refusal 4 in A, U and Q of either kind, needed or not; 6, 8 and 12 by concentration; two conditions at once."""
    faults = (Decimal(1_000_000_000, 0), Decimal(1, 21), Decimal(1, -21), Decimal(0, 1))
    for place, (name, kind) in enumerate(itertools.product(IN_AIR, (INTAKE, CONCENTRATION))):
        for fault in (faults[place % 4], faults[(place + 1) % 4]):
            yield air_case(SOIL).changed(kind=kind, **{name: fault})
    yield air_case(WATER, RADIONUCLIDE).changed(A=faults[3])
    yield air_case(WATER, TRITIUM).changed(U=faults[0])
    # BW is needed still, and what it divides by intake is not.
    for name in ("BW", "AT"):
        yield inhaled_alone(air_case(SOIL)).changed(**{name: ZERO})
    yield air_case(SOIL).changed(A=faults[1], BW=ZERO)
    yield air_case(SOIL).changed(BW=ZERO, U=faults[1])
    yield air_case(SOIL).changed(SFi=faults[3])
    yield air_case(SOIL).changed(IRA=faults[2])
    yield air_case(SOIL).changed(medium=3)
    yield air_case(SOIL).changed(**dict.fromkeys(CONTAMINANT_VALUES, ZERO)).changed(U=Decimal(1, 0), Q=Decimal(1, 0), PEF=ZERO)
    for names in HOUSE_FACTORS:
        yield air_case(WATER, TRITIUM).changed(**{names: ZERO})
    yield air_case(SOIL, TRITIUM).changed(A=ZERO)
    yield air_case(SOIL).changed(id=0, Q=faults[0])


def all_cases():
    source = random.Random(SEED)
    yield from missing_in_air()
    yield from both_kinds()
    yield from ignored_in_air()
    yield from extreme_in_air()
    yield from itertools.islice(hard_in_air(source), 12)
    for medium in (SOIL, SOIL, SOIL, WATER, WATER, WATER):
        yield with_carry_in_air(air_case(medium), source)
    yield from capped_in_air()
    yield from refused_in_air()
    yield from (random_case(source, in_air=True) for _ in range(RANDOM_CASES))
