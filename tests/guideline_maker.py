"""The stored cases of the single guideline: a scenario, a medium and a record each."""
import itertools
import random

import published
from guideline_records import (AGES, HARD_NUMBERS, HOUSE_FACTORS, ON_SKIN, REQUIRED, USUAL, Case, moved, random_case, uncapped,
                               with_carry, with_carry_on_skin)
from second.decimals import DOWN, UP, ZERO, Decimal
from second.terms import CHEMICAL, CONTAMINANT_VALUES, SOIL, TRITIUM, WATER, inputs_of, rounded_factor
from site_parts import TWO_AGES

SEED = 20261115
RANDOM_CASES = 60

# The contaminant values, and the scenario factors that may be zero, on which the pathways of a medium and class depend. Those of
# tritium come in two groups, the factors of its pathways and those of its H.
DEPENDS_ON = {
    (1, 1): (("SFo", "SFi", "RfDo", "RfDi", "VF", "PEF"), ("IR", "IRA")),
    (1, 2): (("SFo", "SFi", "SFx", "PEF"), ("IR", "IRA", "ET", "RF")),
    (2, 1): (("SFo", "SFi", "RfDo", "RfDi", "PC"), ("IR", "IRA", "ET", "SA")),
    (2, 2): (("SFo",), ("IR",)),
    (2, 3): (("SFo", "SFi"), ("IR", "IRA", "ET", "SA", "M", "K"), ("ET", "F", "N", "S", "V")),
}


def full_case(medium, klass):
    """A case in which every factor is known but those of soil on skin."""
    scenario = {
        "EF": Decimal(250, 0), "ED": Decimal(25, 0), "BW": Decimal(70, 0), "AT": Decimal(70, 0), "IR": Decimal(50, 0),
        "IRA": Decimal(20, 0), "PEF": Decimal(428, 7), "ET": Decimal(8, 0), "RF": Decimal(8, -1),
        "SA": Decimal(19400, 0), "TR": Decimal(1, -6), "THI": Decimal(1, 0), "M": Decimal(6696, -2), "F": Decimal(625, -3),
        "N": Decimal(4, 0), "S": Decimal(6, 0), "V": Decimal(5, 0), "L": Decimal(276, -2), "W": Decimal(272, 0),
        "K": Decimal(15, -6),
    }
    record = {
        "class": klass, "id": 7, "SFo": Decimal(13, -2), "SFi": Decimal(53, -3), "SFx": Decimal(21, -10),
        "RfDo": Decimal(7, -4), "RfDi": Decimal(57, -5), "VF": Decimal(19, 3), "PC": Decimal(22, -3),
        "C": Decimal(3, 0), "Csat": Decimal(10, 2),
    }
    return Case(medium, scenario, record)


def unit_case(risk, hazard, saturation):
    """A chemical in soil whose inhalation terms are 1, so that its inhalation guidelines are these targets."""
    ones = dict.fromkeys(("ED", "BW", "AT", "IRA", "SFi", "RfDi", "VF"), Decimal(1, 0))
    return full_case(SOIL, CHEMICAL).changed(EF=Decimal(365, 0), PEF=ZERO, TR=risk, THI=hazard, Csat=saturation, **ones)


def skin_case():
    """A chemical in soil in which every factor is known, with two ages, AF and ABS."""
    return full_case(SOIL, CHEMICAL).changed(**TWO_AGES, ABS=Decimal(13, -2))


def skin_alone(case):
    """The case without ingestion and inhalation."""
    return case.changed(IR=ZERO, IRA=ZERO)


def unit_skin_case():
    """Soil on skin alone, with every other factor 1 and targets of nine digits, so that its guideline shows each unit of G."""
    ones = dict.fromkeys((*ON_SKIN, "SFo", "RfDo", "C"), Decimal(1, 0))
    return skin_alone(skin_case()).changed(**ones, **dict.fromkeys(("AT", "ED"), Decimal(3, 0)),
                                           **dict.fromkeys(("TR", "THI"), Decimal(987_654_321, -8)))


def missing_values():
    """Every combination of missing values for each medium and class, then every combination of missing factors."""
    for (medium, klass), groups in DEPENDS_ON.items():
        for names in groups:
            for known in itertools.product((True, False), repeat=len(names)):
                missing = {name: ZERO for name, is_known in zip(names, known) if not is_known}
                yield full_case(medium, klass).changed(**missing)


def same_value(d, shift):
    """The same value with shift more trailing zeros in m."""
    return Decimal(d.m * 10**shift, d.e - shift)


def extreme_decimals():
    """The least and the greatest inputs, and one value written in several ways."""
    for medium, klass in DEPENDS_ON:
        case = full_case(medium, klass)
        for d in (Decimal(1, -20), Decimal(999_999_999, 20), Decimal(1, 20), Decimal(999_999_999, -20)):
            yield case.changed(**{name: d for name in USUAL})
            yield case.changed(**{name: d for name in ("TR", "THI")})
            yield case.changed(**{name: d for name in USUAL if name in CONTAMINANT_VALUES})
            yield case.changed(**{name: d for name in USUAL if name not in ("TR", "THI", *CONTAMINANT_VALUES)})
            if (medium, klass) == (SOIL, CHEMICAL):
                yield case.changed(**{name: d for name in USUAL if name != "Csat"}, Csat=ZERO)
        for shift in (1, 4):
            decimals = {**case.scenario, **case.record}
            yield case.changed(**{name: same_value(decimals[name], shift) for name in USUAL})


def extreme_houses():
    """H at its ends, with ET and without, and each of its factors at its ends alone."""
    case = full_case(WATER, TRITIUM)
    least, greatest = Decimal(1, -20), Decimal(999_999_999, 20)
    for d, under in ((least, greatest), (greatest, least)):
        house = {**dict.fromkeys(("F", "N", "S", "V"), d), **dict.fromkeys(HOUSE_FACTORS, under)}
        for time in (ZERO, least, greatest):
            yield case.changed(ET=time, **house)
        for name in ("M", "F", "N", "S", "V", "L", "W", "K"):
            yield case.changed(**{name: d})


def hard_roundings(source):
    """Factors of nine digits, factors whose quotients never end, and products just below a power of ten.

    There is no saturation, which would hide them.
    """
    names = [name for name in USUAL if name != "Csat"]
    for medium, klass in DEPENDS_ON:
        case = full_case(medium, klass).changed(Csat=ZERO)
        for m in HARD_NUMBERS[:3]:
            yield case.changed(**{name: Decimal(m, -4) for name in names})
        for _ in range(8):
            yield case.changed(**{name: Decimal(source.choice(HARD_NUMBERS), source.randint(-9, 3)) for name in names})
            yield case.changed(**{name: Decimal(source.randint(10**8, 10**9 - 1), -9) for name in names})
        for _ in range(8):
            yield with_carry(case, source)


def uneven_sums():
    """A term that is tiny beside another, and a part of B or H that is tiny beside the other."""
    one, tiny, target = Decimal(1, 0), Decimal(1, -20), Decimal(999_999_999, -8)
    case = full_case(1, 2).changed(IR=one, EF=one, ED=one, ET=one, RF=one, IRA=one, PEF=one, TR=target)
    for m in (999_999_999, 100_000_000):
        yield case.changed(SFo=Decimal(m, 0), SFi=ZERO, SFx=tiny)
        yield case.changed(SFo=tiny, SFi=Decimal(m, 0), SFx=ZERO)
        yield case.changed(SFo=tiny, SFi=tiny, SFx=Decimal(m, 0))
    yield full_case(1, 1).changed(VF=Decimal(1, -20), PEF=Decimal(1, 20))
    yield full_case(1, 1).changed(VF=Decimal(999_999_999, 20), PEF=Decimal(3, -20))
    house = full_case(WATER, TRITIUM).changed(**dict.fromkeys(("IRA", "EF", "ED", "M", "N", "S", "V", "L", "W"), one))
    house = house.changed(TR=target, SFi=one, SFo=ZERO)
    for m in (999_999_999, 100_000_000):
        yield house.changed(ET=tiny, F=Decimal(m, 0))
        yield house.changed(ET=Decimal(m, 0), F=tiny)
    # Quotients that never end, and a product L, W that is rounded the other way.
    yield house.changed(ET=ZERO, W=Decimal(3, 0))
    yield house.changed(ET=tiny, L=Decimal(7, 0), W=Decimal(3, 0))
    yield house.changed(ET=one, L=Decimal(333_333_333, -9), W=Decimal(999_999_999, -9))


def beside_saturation():
    """A saturation that is an inhalation guideline of either side, or one unit of the last digit beside it, in every form."""
    case = full_case(SOIL, CHEMICAL)
    for found, steps in itertools.product(uncapped(case), (-1, 0, 1)):
        yield case.changed(Csat=moved(found, steps))
    two, three = Decimal(2, 0), Decimal(3, 0)
    for steps in (0, 1, 4, 8):
        yield unit_case(two, three, same_value(two, steps))
        yield unit_case(three, two, same_value(three, steps))
    # Units beside a power of ten, and targets and saturations at their ends.
    for one, below, above in (((1, 0), (999_999_999, -9), (100_000_001, -8)), ((1, 20), (999_999_999, 11), (100_000_001, 12)),
                              ((1, -11), (999_999_999, -20), (100_000_001, -19)), ((999_999_999, 20), (999_999_998, 20), (1, -20)),
                              ((1, -20), (2, -20), (999_999_999, 20))):
        yield from (unit_case(Decimal(*one), Decimal(*one), Decimal(*saturation)) for saturation in (one, below, above))


def far_saturation():
    """A saturation that caps risk alone, hazard alone, both or neither; the least and the greatest; one value in several forms."""
    two, three = Decimal(2, 0), Decimal(3, 0)
    for saturation in (Decimal(25, -1), Decimal(1, 0), Decimal(1, -20), Decimal(4, 0), Decimal(999_999_999, 20), ZERO):
        yield unit_case(two, three, saturation)
        yield unit_case(three, two, saturation)
    for d in (Decimal(1, -20), Decimal(999_999_999, -20), Decimal(1, 20), Decimal(999_999_999, 20), Decimal(5, -1), Decimal(50, -2),
              Decimal(500_000_000, -9), Decimal(20, 0)):
        yield full_case(SOIL, CHEMICAL).changed(Csat=d)


def idle_saturation():
    """A saturation where inhalation is absent on one side or both, where nothing else is known, and where it is ignored."""
    for names in (("SFi",), ("RfDi",), ("SFi", "RfDi"), ("IRA",), ("VF", "PEF")):
        for saturation in (Decimal(1, -3), Decimal(1, 20)):
            yield full_case(SOIL, CHEMICAL).changed(**dict.fromkeys(names, ZERO), Csat=saturation)
    for medium, klass in DEPENDS_ON:
        case = full_case(medium, klass)
        yield case.changed(**dict.fromkeys(CONTAMINANT_VALUES, ZERO)).changed(Csat=Decimal(7, -1))
        if (medium, klass) != (SOIL, CHEMICAL):
            yield case.changed(Csat=Decimal(1, -20))
            # Ignored, but not unchecked; 12 comes after.
            yield case.changed(Csat=Decimal(0, 1))
            yield case.changed(Csat=Decimal(1_000_000_000, 0), L=ZERO)


def missing_on_skin():
    """Each decimal of soil on skin missing, several at once, and all but one, where it is the only pathway; nothing missing beside it."""
    yield skin_case()
    missing = [(name,) for name in ("SFo", "RfDo", *ON_SKIN)] + [("SFo", "RfDo"), AGES["child"], AGES["adult"]]
    missing += [*zip(*AGES.values()), ("childSA", "adultBW"), (*AGES["child"], "RfDo"), (*AGES["adult"], "SFo")]
    missing += [[name for name in ON_SKIN if name != known] for known in ("AF", "ABS")]
    for names in missing:
        yield skin_alone(skin_case()).changed(**dict.fromkeys(names, ZERO))
    # Beside the other pathways what is missing leaves these as they are.
    for names in (("ABS",), ("childBW", "adultED"), ("SFo",), ("IR",), ("IRA",)):
        yield skin_case().changed(**dict.fromkeys(names, ZERO))


# The factors after the stroke of a chemical in soil, and those that B has there.
DIVIDED_BY = ("ED", "BW", "AT", "RfDo", "RfDi", "VF", "PEF")


def extreme_on_skin():
    """Soil on skin and its G at their ends, with one age or both, and one value written in several ways."""
    least, greatest = Decimal(1, -20), Decimal(999_999_999, 20)
    weights = tuple(AGES[age][-1] for age in AGES)
    for d, under in ((least, greatest), (greatest, least)):
        case = skin_case().changed(**dict.fromkeys(ON_SKIN, d))
        yield case
        yield case.changed(**dict.fromkeys(weights, under))
        yield case.changed(**dict.fromkeys((*USUAL, *ON_SKIN), d))
        ends = {**dict.fromkeys((*USUAL, *ON_SKIN), d), **dict.fromkeys((*weights, *DIVIDED_BY), under)}
        yield case.changed(**{**ends, "Csat": ZERO})
        yield case.changed(**dict.fromkeys(AGES["adult"], under))
        yield skin_case().changed(**{**dict.fromkeys(AGES["child"], d), "childBW": under}, **dict.fromkeys(AGES["adult"], ZERO))
    for shift in (1, 5):
        case = skin_case()
        decimals = {**case.scenario, **case.record}
        yield case.changed(**{name: same_value(decimals[name], shift) for name in ON_SKIN})


def hard_ages(source):
    """Soil on skin alone, without end, with a G that is not the same up and down and of which each unit shows in the guidelines.

    The quotients of the ages never end, or their sum has more than nine digits, or one age is alone; in a third of the cases the other
    factors have nine digits as well.
    """
    numbers = [m for m in HARD_NUMBERS if m >= 10**8]

    def hard(names):
        return {name: Decimal(source.choice((*numbers, source.randint(10**8, 10**9 - 1))), source.choice((-8, -8, -8, -9)))
                for name in names}

    while True:
        ages = hard((*AGES["child"], *AGES["adult"]))
        ages.update({names[-1]: Decimal(source.choice((3, 7, 15, 16, 70)), 0) for names in AGES.values() if source.randrange(2)})
        if source.randrange(4) == 0:
            ages[source.choice(list(ages))] = ZERO
        case = unit_skin_case().changed(**ages, **(hard(("SFo", "ABS", "AF", "RfDo", "ED", "AT")) if source.randrange(3) == 0 else {}))
        up, down = (rounded_factor("G", inputs_of(case.scenario, case.record), direction) for direction in (UP, DOWN))
        if up != down and up.m < 2 * 10**8:
            yield case


def uneven_ages():
    """An age whose part of G is tiny beside the other's, and a sum of parts that is the next power of ten."""
    for m, (age, other) in itertools.product((999_999_999, 100_000_000), (("child", "adult"), ("adult", "child"))):
        yield unit_skin_case().changed(**{age + "SA": Decimal(m, 0), other + "SA": Decimal(1, -20)})


def ignored_on_skin():
    """The decimals of soil on skin where no pathway names them: they move nothing, but each keeps its rule."""
    for place, (medium, klass) in enumerate(kind for kind in DEPENDS_ON if kind != (SOIL, CHEMICAL)):
        case = full_case(medium, klass).changed(**dict.fromkeys(ON_SKIN, Decimal(999_999_999, 20)))
        yield case
        yield case.changed(**{ON_SKIN[3 * place]: Decimal(0, 1)})
        yield case.changed(**dict.fromkeys([name for name in CONTAMINANT_VALUES if name != "ABS"], ZERO))


def capped_on_skin():
    """A saturation far below every guideline caps inhalation alone; where inhalation is absent it caps nothing."""
    for names in ((), ("IR",), ("IRA",), ("SFi",), ("IR", "IRA")):
        yield skin_case().changed(**dict.fromkeys(names, ZERO), Csat=Decimal(1, -20))


def refused_fields():
    """Refusal 4 in each decimal, in the medium, the class and the id; refusal 6 in each required factor."""
    faults = (Decimal(1_000_000_000, 0), Decimal(1, 21), Decimal(1, -21), Decimal(0, 1))
    case = full_case(1, 1)
    for name in USUAL:
        for fault in faults:
            yield case.changed(**{name: fault})
    for place, name in enumerate(ON_SKIN):
        yield case.changed(**{name: faults[place % 4]})
    for medium, klass in ((0, 0), (3, 4), (2**32 - 1, 2**32 - 1)):
        yield case.changed(medium=medium)
        yield case.changed(**{"class": klass})
    yield case.changed(id=0)
    for name in REQUIRED:
        yield case.changed(**{name: ZERO})
    # The outer ends of a field, and the last decimals that keep the rule.
    for d in (Decimal(2**32 - 1, 0), Decimal(1, 2**15 - 1), Decimal(1, -(2**15)), Decimal(0, -1), Decimal(5, 256)):
        yield case.changed(SFo=d)
        yield case.changed(EF=d)
    yield case.changed(SFo=Decimal(999_999_999, 20), RfDo=Decimal(999_999_999, -20))


def without_house():
    """Refusal 12: tritium where L or W is zero or the medium is soil; alone, and with what is sent back before it or after it."""
    houses = (("L",), ("W",), HOUSE_FACTORS)
    cases = [full_case(WATER, TRITIUM).changed(**dict.fromkeys(names, ZERO)) for names in houses]
    cases += [case.changed(medium=SOIL) for case in (full_case(WATER, TRITIUM), cases[2])]
    for case in cases:
        yield case
        # Its inhalation is absent anyway; it has no pathway; the record, then the scenario, breaks a rule that is tested before.
        yield case.changed(SFi=ZERO)
        yield case.changed(M=ZERO, F=ZERO, ET=ZERO)
        yield case.changed(**dict.fromkeys(CONTAMINANT_VALUES, ZERO))
        yield case.changed(RfDi=Decimal(1, 21))
        yield case.changed(id=0)
        yield case.changed(AT=ZERO)
        yield case.changed(K=Decimal(0, 1))
        # The other classes need no house.
        yield from (case.changed(**{"class": klass}) for klass in (1, 2))


def two_faults():
    """Two conditions at once: the first in the specification's order is the one sent back."""
    field, absent = Decimal(1, 21), {name: ZERO for name in CONTAMINANT_VALUES}
    for medium, klass in DEPENDS_ON:
        case = full_case(medium, klass)
        yield case.changed(EF=field, ED=ZERO)
        yield case.changed(THI=ZERO, SFo=field)
        yield case.changed(C=field, medium=3)
        yield case.changed(BW=ZERO, **absent)
        yield case.changed(**{**absent, "C": field})
        yield case.changed(id=0, **absent)
        yield case.changed(**{"class": 4, "AT": ZERO})
        yield case.changed(**{"class": 0, "id": 0})
        yield case.changed(medium=0, TR=ZERO)


def all_cases():
    """The published numbers first."""
    source = random.Random(SEED)
    cases = [case for _, case in published.read()]
    cases += missing_values()
    cases += extreme_decimals()
    cases += extreme_houses()
    cases += hard_roundings(source)
    cases += uneven_sums()
    cases += beside_saturation()
    cases += far_saturation()
    cases += idle_saturation()
    cases += missing_on_skin()
    cases += extreme_on_skin()
    cases += itertools.islice(hard_ages(source), 14)
    cases += (with_carry_on_skin(skin_case().changed(Csat=ZERO), source) for _ in range(6))
    cases += uneven_ages()
    cases += ignored_on_skin()
    cases += capped_on_skin()
    cases += refused_fields()
    cases += without_house()
    cases += two_faults()
    cases += (random_case(source) for _ in range(RANDOM_CASES))
    return cases
