"""Cases of the single guideline in the words of the specification, and random ones."""
from second.decimals import ZERO, Decimal, keeps_input_rule
from second.guideline import guideline
from second.terms import CHEMICAL, CONCENTRATION, CONTAMINANT_VALUES, INTAKE, RADIONUCLIDE, SCENARIO_FACTORS, SOIL, TRITIUM, WATER

REQUIRED = ("EF", "ED", "BW", "AT", "TR", "THI")
# What a scenario needs as well where the class is tritium.
HOUSE_FACTORS = ("L", "W")
# The decimals that soil on skin needs and no other pathway names: the four of each age, AF and ABS. Those that inhalation by
# concentration needs and no other pathway, and all others. The usual ones are in neither of the two.
AGES = {age: tuple(age + factor for factor in ("SA", "EF", "ED", "BW")) for age in ("child", "adult")}
ON_SKIN = (*AGES["child"], *AGES["adult"], "AF", "ABS")
IN_AIR = ("A", "U", "Q")
NOT_IN_AIR = tuple(name for name in SCENARIO_FACTORS + CONTAMINANT_VALUES if name not in IN_AIR)
USUAL = tuple(name for name in NOT_IN_AIR if name not in ON_SKIN)
# Factors whose products and quotients fall just beside a power of ten or never end.
HARD_NUMBERS = (999_999_999, 100_000_001, 333_333_334, 100_000_000, 333_333_333, 666_666_667, 1, 3, 7)

# The first two factors of a product of the terms, and of the products that stand in tritium's H alone; those of soil on skin and its G;
# and factors of inhalation by concentration that are multiplied one after the other where those between them are 1.
MULTIPLIED_FIRST = (("SFo", "IR"), ("SFi", "IRA"), ("SFx", "ET"), ("SFo", "SA"), ("BW", "AT"), ("RfDo", "BW"))
MULTIPLIED_IN_H = (("F", "N"), ("L", "W"))
MULTIPLIED_ON_SKIN = (("SFo", "ABS"), ("ABS", "AF"), ("RfDo", "ED"), ("childSA", "childEF"), ("adultSA", "adultEF"))
MULTIPLIED_IN_AIR = (("U", "A"), ("A", "EF"), ("EF", "ED"))


def full_scenario(scenario):
    """The scenario with its kind, by intake where none is given, and every factor, zero where it is not given."""
    return {"kind": scenario.get("kind", INTAKE), **{name: scenario.get(name, ZERO) for name in SCENARIO_FACTORS}}


class Case:
    """A scenario, a medium and a contaminant record, each in the words of the specification."""

    def __init__(self, medium, scenario, record):
        self.medium = medium
        self.scenario = full_scenario(scenario)
        self.record = {"class": record["class"], "id": record["id"]}
        self.record.update({name: record.get(name, ZERO) for name in CONTAMINANT_VALUES})

    def changed(self, **changes):
        """The same case with other values for some names."""
        medium = changes.pop("medium", self.medium)
        scenario = {name: changes.pop(name, d) for name, d in self.scenario.items()}
        record = {name: changes.pop(name, d) for name, d in self.record.items()}
        assert not changes, changes
        return Case(medium, scenario, record)


def answer_of(case):
    return guideline(case.scenario, case.medium, case.record)


def moved(d, steps):
    """The working decimal this many units of its last digit away; the digits may become eight."""
    m = d.m + steps
    return Decimal(m, d.e) if m < 10**9 else Decimal(10**8, d.e + 1)


def uncapped(case):
    """The inhalation guidelines of risk and hazard by no saturation."""
    guidelines = answer_of(case.changed(Csat=ZERO)).guidelines
    return guidelines[1], guidelines[5]


def random_decimal(random):
    """A decimal above zero that keeps the rule of a record."""
    kind = random.randrange(4)
    if kind == 0:
        m = random.choice(HARD_NUMBERS)
    elif kind == 1:
        m = random.randint(1, 999_999_999)
    elif kind == 2:
        m = random.randint(1, 999)
    else:
        # Trailing zeros: the same value as a shorter m with a greater e.
        m = random.randint(1, 9999) * 10 ** random.randrange(6)
    e = random.choice((-20, 20, random.randint(-20, 20), random.randint(-8, 4)))
    return Decimal(m, e)


def just_below_power(random):
    """Two decimals whose product, (10^8 + a)(10^9 - 10a) = 10^17 - 10a^2, rounds up to a power of ten."""
    a = random.randint(1, 3000)
    return Decimal(10**8 + a, random.randint(-20, 10)), Decimal(10**9 - 10 * a, random.randint(-20, 10))


def with_carry(case, random):
    """The case with a product that rounds up to a power of ten.

    In half of them the other factors are 1 and the targets 999,999,999, so that the guideline shows the carry; a saturation would
    hide it. A product of H shows it where ET adds nothing.
    """
    in_h = case.record["class"] == TRITIUM and random.randrange(2)
    names = random.choice(MULTIPLIED_IN_H if in_h else MULTIPLIED_FIRST)
    if random.randrange(2):
        others = [name for name in (*SCENARIO_FACTORS, "VF", "PC") if name not in ("TR", "THI", *ON_SKIN, *IN_AIR)]
        case = case.changed(**{name: Decimal(1, 0) for name in others})
        case = case.changed(TR=Decimal(999_999_999, -8), THI=Decimal(999_999_999, -8), Csat=ZERO)
    case = case.changed(**dict(zip(names, just_below_power(random))))
    return case.changed(ET=ZERO) if in_h else case


def with_carry_on_skin(case, random):
    """The case of a chemical in soil with a product of soil on skin that rounds up to a power of ten, and with one age alone.

    In half of them the other factors are 1 and no other pathway is there, so that the guideline of a side shows the carry.
    """
    names = random.choice(MULTIPLIED_ON_SKIN)
    gone = "adult" if names[0] in AGES["child"] else "child"
    if random.randrange(2):
        ones = [name for name in (*USUAL, *ON_SKIN) if name not in ("TR", "THI", "IR", "IRA", "C", "Csat")]
        case = case.changed(**dict.fromkeys(ones, Decimal(1, 0)), IR=ZERO, IRA=ZERO, Csat=ZERO)
        case = case.changed(TR=Decimal(999_999_999, -8), THI=Decimal(999_999_999, -8))
    case = case.changed(**dict.fromkeys(AGES[gone], ZERO))
    return case.changed(**dict(zip(names, just_below_power(random))))


def with_carry_in_air(case, random):
    """The case of a chemical by concentration in which inhalation has a product that rounds up to a power of ten.

    Its other factors are 1, the 0.5 of water among them, since there the first of the two is doubled. In half of them no other pathway is
    there, so that the guideline of a side shows the carry; a saturation would hide it.
    """
    names = random.choice(MULTIPLIED_IN_AIR)
    one, other = just_below_power(random)
    ones = [name for name in (*REQUIRED, *IN_AIR, "VF") if name not in ("TR", "THI")]
    case = case.changed(**dict.fromkeys(ones, Decimal(1, 0)), PEF=ZERO, Csat=ZERO)
    if random.randrange(2):
        case = case.changed(**dict.fromkeys(("IR", "SA", "AF"), ZERO), **dict.fromkeys(("TR", "THI"), Decimal(999_999_999, -8)))
    return case.changed(**{names[0]: Decimal(one.m * (2 if case.medium == WATER else 1), one.e), names[1]: other})


def with_saturation_near(case, random):
    """The case with a saturation that is one of its inhalation guidelines or one unit of the last digit beside it.

    Where there is no such guideline, or the record could not hold that saturation, the case is as it was.
    """
    guideline_alone = random.choice(uncapped(case))
    near = moved(guideline_alone, random.choice((-1, 0, 1)))
    return case.changed(Csat=near) if guideline_alone != ZERO and keeps_input_rule(near) else case


def random_fault(random):
    """A decimal that breaks the rule of a record."""
    e = random.randint(-20, 20)
    return random.choice((
        Decimal(1_000_000_000, e),
        Decimal(2**32 - 1, e),
        Decimal(random.randint(1, 999_999_999), random.choice((21, -21, 2**15 - 1, -(2**15), 999, -1000))),
        Decimal(0, random.choice((1, -1, 20, -20))),
    ))


def random_classes(random):
    """Classes of one list, mostly such as may stand together; the scenario and medium for the last one fit them all."""
    apart = (CHEMICAL, RADIONUCLIDE), (RADIONUCLIDE, TRITIUM)
    return (CHEMICAL, RADIONUCLIDE, TRITIUM) if random.randrange(12) == 0 else random.choice(apart)


def random_valid_case(random, classes=(CHEMICAL, RADIONUCLIDE, TRITIUM), on_skin=None, in_air=False):
    """Each value that may be zero is zero in about one case of six, the saturation in one of two.

    Tritium is in water, and its scenario has a house. Where it is not said whether the case is on skin, it is in two of five: in the
    others the decimals of soil on skin are all zero. In air, two of three cases are by concentration, and kind 1 has A, U and Q too;
    otherwise the case is by intake, without them.
    """
    klass = random.choice(classes)
    needed = REQUIRED + HOUSE_FACTORS if klass == TRITIUM else REQUIRED
    on_skin = random.randrange(5) < 2 if on_skin is None else on_skin
    absent = (() if on_skin else ON_SKIN) + (() if in_air else IN_AIR)

    def value(name):
        if name in absent or name not in needed and random.randrange(2 if name == "Csat" else 6) == 0:
            return ZERO
        return random_decimal(random)

    record = {name: value(name) for name in CONTAMINANT_VALUES}
    record.update({"class": klass, "id": random.choice((1, 2**32 - 1, random.randint(1, 2**32 - 1)))})
    medium = WATER if klass == TRITIUM else random.choice((SOIL, WATER))
    case = Case(medium, {name: value(name) for name in SCENARIO_FACTORS}, record)
    if in_air and random.randrange(3):
        case = case.changed(kind=CONCENTRATION)
        if klass == CHEMICAL and random.randrange(4) == 0:
            return with_carry_in_air(case, random)
    if random.randrange(4) == 0:
        return (with_carry_on_skin if (medium, klass, on_skin) == (SOIL, CHEMICAL, True) else with_carry)(case, random)
    if (medium, klass) == (SOIL, CHEMICAL) and random.randrange(3) == 0:
        return with_saturation_near(case, random)
    return case


def random_case(random, classes=(CHEMICAL, RADIONUCLIDE, TRITIUM), on_skin=None, in_air=False):
    """Most cases keep every rule; one in five breaks one to three."""
    case = random_valid_case(random, classes, on_skin, in_air)
    if random.randrange(5):
        return case
    for _ in range(random.randint(1, 3)):
        names = NOT_IN_AIR + REQUIRED + 3 * HOUSE_FACTORS + 2 * ("medium", "class") + ("id",)
        name = random.choice(names + 3 * IN_AIR if in_air else names)
        if name == "medium":
            change = random.choice((0, SOIL, 3, 2**32 - 1))
        elif name == "class":
            change = random.choice((0, TRITIUM, 4, 2**32 - 1))
        elif name == "id":
            change = 0
        elif name in REQUIRED + HOUSE_FACTORS and random.randrange(2):
            change = ZERO
        else:
            change = random_fault(random)
        case = case.changed(**{name: change})
    return case
