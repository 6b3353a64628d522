"""The parts from which test sites are made: scenarios, records, and a site before and after it is bytes."""
import random

from guideline_records import USUAL, Case, full_scenario
from second.blocks import WORD, contaminant_block, header_block
from second.decimals import ZERO, Decimal
from second.guideline import has_any_pathway
from second.terms import CHEMICAL, CONCENTRATION, CONTAMINANT_VALUES, RADIONUCLIDE, SCENARIO_FACTORS, SOIL, TRITIUM, WATER, inputs_of
from site_faults import air_faults, contaminant_faults, damaged, header_faults

MEDIA = {SOIL: "soil", WATER: "water"}
CLASSES = {CHEMICAL: "chemical", RADIONUCLIDE: "radionuclide", TRITIUM: "tritium"}
# The media and classes that go together, and the classes that may stand in one list of a medium.
KINDS = [(SOIL, CHEMICAL), (SOIL, RADIONUCLIDE), (WATER, CHEMICAL), (WATER, RADIONUCLIDE), (WATER, TRITIUM)]
TOGETHER = {SOIL: ((CHEMICAL, RADIONUCLIDE),), WATER: ((CHEMICAL, RADIONUCLIDE), (RADIONUCLIDE, TRITIUM))}
ONE = Decimal(1, 0)

# The built-in scenarios of the specification; one in which every factor is known but those of a house; and one with a house, in
# which SA is in m2 and IRA in m3 per hour, as tritium needs them.
PERSON = {"BW": Decimal(70, 0), "AT": Decimal(70, 0), "TR": Decimal(1, -6), "THI": ONE}
SCENARIOS = (
    {"EF": Decimal(250, 0), "ED": Decimal(25, 0), "IR": Decimal(50, 0), "IRA": Decimal(20, 0), "PEF": Decimal(428, 7)},
    {"EF": Decimal(250, 0), "ED": ONE, "IR": Decimal(200, 0), "IRA": Decimal(15, 0), "PEF": Decimal(5, 6),
     "ET": Decimal(8, 0), "RF": ONE},
    {"EF": Decimal(50, 0), "ED": Decimal(5, 0), "IR": Decimal(25, 0), "IRA": Decimal(5, 0), "PEF": Decimal(2, 7),
     "ET": Decimal(4, 0), "RF": Decimal(8, -1)},
    {"EF": Decimal(350, 0), "ED": Decimal(30, 0), "IR": Decimal(2, 0), "IRA": Decimal(15, 0), "PEF": Decimal(463, 7),
     "ET": Decimal(25, -1), "RF": Decimal(7, -1), "SA": Decimal(19400, 0)},
    {"EF": Decimal(350, 0), "ED": Decimal(30, 0), "IR": Decimal(2, 0), "IRA": Decimal(83, -2), "PEF": Decimal(463, 7),
     "ET": Decimal(167, -3), "RF": Decimal(7, -1), "SA": Decimal(19, -1), "M": Decimal(6696, -2), "F": Decimal(625, -3),
     "N": Decimal(4, 0), "S": Decimal(6, 0), "V": Decimal(5, 0), "L": Decimal(276, -2), "W": Decimal(272, 0), "K": Decimal(15, -6)},
)
WITHOUT_HOUSE, WITH_HOUSE = SCENARIOS[-2:]
# The child and the adult of soil on skin, as source document 004 has them in its Table B-23.
TWO_AGES = {"childSA": Decimal(2500, 0), "childEF": Decimal(180, 0), "childED": Decimal(6, 0), "childBW": Decimal(16, 0),
            "adultSA": Decimal(5000, 0), "adultEF": Decimal(180, 0), "adultED": Decimal(64, 0), "adultBW": Decimal(70, 0), "AF": ONE}

# The powers of ten between which plausible contaminant values lie, by class.
PLAUSIBLE = {
    CHEMICAL: {"SFo": (-4, 1), "SFi": (-4, 1), "SFx": (-9, -7), "RfDo": (-5, -1), "RfDi": (-5, -1), "VF": (3, 6),
               "PC": (-4, -1), "C": (-2, 3), "Csat": (0, 4)},
    RADIONUCLIDE: {"SFo": (-12, -9), "SFi": (-12, -9), "SFx": (-11, -8), "RfDo": (-5, -1), "RfDi": (-5, -1), "VF": (3, 6),
                   "PC": (-4, -1), "C": (1, 6), "Csat": (0, 4)},
    TRITIUM: {"SFo": (-14, -13), "SFi": (-14, -13), "SFx": (-11, -8), "RfDo": (-5, -1), "RfDi": (-5, -1), "VF": (3, 6),
              "PC": (-4, -1), "C": (0, 5), "Csat": (0, 4)},
}


class Site:
    """A scenario, a medium and records in the words of the specification, before they are bytes."""

    def __init__(self, medium, scenario, records):
        self.medium = medium
        self.scenario = full_scenario(scenario)
        self.records = [Case(medium, {}, record).record for record in records]

    def blocks(self):
        contaminants = [contaminant_block(place, record) for place, record in enumerate(self.records, 1)]
        return [header_block(self.medium, len(self.records), self.scenario), *contaminants]

    def content(self):
        return b"".join(self.blocks())

    def faults(self, place):
        """Every fault of the block at this place."""
        if place == 0:
            return list(header_faults(len(self.records)))
        record = self.records[place - 1]
        previous_id = self.records[place - 2]["id"] if place > 1 else None
        return list(contaminant_faults(place, self.medium, record["class"], previous_id, self.impossible_class(place)))

    def air_faults(self, place):
        """Every fault of the block at this place by which a site by concentration differs from the others."""
        return list(air_faults(place == 0))

    def impossible_class(self, place):
        """The class that no record at this place can have beside the earlier ones (refusal 12), None where each is possible.

        Tritium is not possible in soil, where L or W is zero, and after a chemical; a chemical is not after tritium.
        """
        earlier = {record["class"] for record in self.records[:place - 1]}
        if self.medium == SOIL or ZERO in (self.scenario["L"], self.scenario["W"]) or CHEMICAL in earlier:
            return TRITIUM
        return CHEMICAL if TRITIUM in earlier else None

    def with_faults(self, faults):
        """The bytes with these faults, which stand by place."""
        blocks = [damaged(block, faults[place]) if place in faults else block for place, block in enumerate(self.blocks())]
        return b"".join(blocks)


def plausible(source, low, high):
    """A decimal worth 10^low to 10^(high + 1), with one to nine digits, of which none is below 10^-20."""
    power = source.randint(low, high)
    digits = min(source.choice((1, 2, 3, 9)), power + 21)
    return Decimal(source.randint(10**(digits - 1), 10**digits - 1), power - digits + 1)


def some_ids(source, count):
    """Rising ids: from 1, across a byte, across the sign of a word, up to the greatest, or anywhere."""
    start = source.choice((1, 1, 255, 65_535, 2**31 - 1, 2**31, WORD - count, None))
    if start is None:
        return sorted(source.sample(range(1, WORD), count))
    return list(range(start, start + count))


def full_record(source, klass, number):
    """A record in which every usual value is known and plausible, but for the saturation, which about half of them have."""
    values = {name: plausible(source, *PLAUSIBLE[klass][name]) for name in CONTAMINANT_VALUES if name in USUAL}
    if source.randrange(2):
        values["Csat"] = ZERO
    return {"class": klass, "id": number, **values}


def with_skin(source, site):
    """The site with a child, an adult and an ABS in each record, at times of nine digits."""
    digits = source.choice((0, 0, 5))
    site.scenario.update({name: Decimal(d.m * 10**digits + source.randrange(10**digits), d.e - digits) for name, d in TWO_AGES.items()})
    for record in site.records:
        record["ABS"] = plausible(source, -3, -1)
    return site


def with_air(source, site, kind=CONCENTRATION):
    """The site of this kind, with A, and U and Q in each record, at times of nine digits."""
    hours = source.choice((Decimal(8, 0), Decimal(24, 0), Decimal(source.randint(10**7, 24 * 10**7), -7)))
    site.scenario.update({"kind": kind, "A": hours})
    for record in site.records:
        record.update({"U": plausible(source, -7, -3), "Q": plausible(source, -4, 0)})
    return site


def at_times_with_skin(site):
    """The site, of five two with soil on skin. These are drawn from a source of their own: the other three stay what they were."""
    source = random.Random(repr([{name: part for name, part in record.items() if name not in ("U", "Q")} for record in site.records]))
    return with_skin(source, site) if source.randrange(5) < 2 else site


def some_scenario(source, classes):
    """One of the fixed scenarios that these classes can have, at times with nine digits in its factors."""
    scenario = {**PERSON, **(WITH_HOUSE if TRITIUM in classes else source.choice(SCENARIOS))}
    if source.randrange(2):
        scenario = {name: Decimal(d.m * 10**5 + source.randrange(10**5), d.e - 5) if d.m < 10**4 else d
                    for name, d in scenario.items()}
    return scenario


def full_site(source, count, medium=None, klass=None):
    """Every value known and every factor that its classes need, so that every record has a pathway; at times with soil on skin."""
    medium = medium or (WATER if klass == TRITIUM else source.choice(list(MEDIA)))
    classes = (klass,) if klass else source.choice(TOGETHER[medium])
    records = [full_record(source, source.choice(classes), number) for number in some_ids(source, count)]
    scenario = WITH_HOUSE if TRITIUM in classes else source.choice((WITHOUT_HOUSE, WITH_HOUSE))
    return at_times_with_skin(Site(medium, {**PERSON, **scenario}, records))


def plausible_site(source, count):
    """Plausible records, some values missing, each with a pathway; at times with soil on skin."""
    medium = source.choice(list(MEDIA))
    classes = source.choice(TOGETHER[medium])
    scenario, records = some_scenario(source, classes), []
    for number in some_ids(source, count):
        record = None
        while record is None or not has_any_pathway(medium, record, inputs_of(Site(medium, scenario, []).scenario, record)):
            record = Case(medium, {}, full_record(source, source.choice(classes), number)).record
            record.update({name: ZERO for name in CONTAMINANT_VALUES if name in USUAL and source.randrange(5) == 0})
        records.append(record)
    return at_times_with_skin(Site(medium, scenario, records))


def quick_site(source, count):
    """A site that is quick to work out: radionuclides in water have one pathway."""
    return full_site(source, count, WATER, RADIONUCLIDE)


def written_shorter(source, d):
    """At times the same value with fewer trailing zeros in m."""
    while d.m % 10 == 0 and d.m and source.randrange(2):
        d = Decimal(d.m // 10, d.e + 1)
    return d


def with_decimals(site, decimals):
    """The site with these decimals by name, in the scenario and in every record."""
    site.scenario.update({name: d for name, d in decimals.items() if name in SCENARIO_FACTORS})
    for record in site.records:
        record.update({name: d for name, d in decimals.items() if name in CONTAMINANT_VALUES})
    return site
