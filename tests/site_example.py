"""The examples of the specification: their sites, made by the writers of the second calculation, and the text printed for each."""
from guideline_records import Case
from second.blocks import BLOCK, write_contaminant, write_header
from second.decimals import Decimal
from second.terms import CONCENTRATION, SOIL, TRITIUM, WATER
from site_parts import PERSON, SCENARIOS, WITH_HOUSE

EXAMPLE_TEXT = """\
1 risk 5.72319997E+0 - - 5.72319997E+0
1 hazard 4.08799998E+4 - - 4.08799998E+4
sum risk 3.49454850E-7 3.49454852E-7 within
sum hazard 4.89236790E-5 4.89236792E-5 within
"""
TRITIUM_TEXT = """\
1 risk 6.61375661E+2 6.68791421E+4 2.77918126E+5 6.53359672E+2
sum risk 7.65275260E-7 7.65275270E-7 within
sum hazard - - none
"""
SKIN_TEXT = """\
1 risk 5.72319997E+0 - 1.45170454E+0 1.15797992E+0
1 hazard 4.08799998E+4 - 1.03693181E+4 8.27128518E+3
sum risk 0 0 within
sum hazard 0 0 within
"""
# By concentration, in soil and in water.
CONCENTRATION_TEXTS = {
    SOIL: """\
1 risk - 2.98737133E+1 - 2.98737133E+1
1 hazard - 2.49658889E+3 - 2.49658889E+3
sum risk 6.69484892E-8 6.69484900E-8 within
sum hazard 8.01093036E-4 8.01093046E-4 within
""",
    WATER: """\
1 risk - 3.14461538E-3 - 3.14461538E-3
1 hazard - 2.62799999E-1 - 2.62799999E-1
sum risk 6.36007826E-4 6.36007828E-4 above
sum hazard 7.61035006E+0 7.61035008E+0 above
""",
}


def example_case():
    """Scenario 1, the office worker, in soil; one chemical, id 1, SFo 1, RfDo 0.02, C 2, others zero."""
    record = {"class": 1, "id": 1, "SFo": Decimal(1, 0), "RfDo": Decimal(2, -2), "C": Decimal(2, 0)}
    return Case(1, {**PERSON, **SCENARIOS[0]}, record)


def tritium_case():
    """A house with a shower, in water; tritium, id 1, SFo 7.2 x 10^-14, SFi 9.6 x 10^-14, C 500, others zero, PEF and RF too."""
    record = {"class": TRITIUM, "id": 1, "SFo": Decimal(72, -15), "SFi": Decimal(96, -15), "C": Decimal(500, 0)}
    scenario = {name: d for name, d in WITH_HOUSE.items() if name not in ("PEF", "RF")}
    return Case(WATER, {**PERSON, **scenario}, record)


def skin_case():
    """Scenario 1 in soil with a child and an adult; one chemical, id 1, SFo 1, RfDo 0.02, ABS 0.1, others zero."""
    ages = {"childSA": Decimal(2000, 0), "childEF": Decimal(350, 0), "childED": Decimal(6, 0), "childBW": Decimal(15, 0),
            "adultSA": Decimal(5000, 0), "adultEF": Decimal(350, 0), "adultED": Decimal(24, 0), "adultBW": Decimal(70, 0),
            "AF": Decimal(2, -1)}
    record = {"class": 1, "id": 1, "SFo": Decimal(1, 0), "RfDo": Decimal(2, -2), "ABS": Decimal(1, -1)}
    return Case(SOIL, {**PERSON, **SCENARIOS[0], **ages}, record)


def concentration_case(medium=SOIL):
    """Scenario 1 of kind 6 with A 8; one chemical, id 1, U 7.8 x 10^-6, Q 0.03, VF 19000, C 2, others zero."""
    record = {"class": 1, "id": 1, "U": Decimal(78, -7), "Q": Decimal(3, -2), "VF": Decimal(19, 3), "C": Decimal(2, 0)}
    return Case(medium, {**PERSON, **SCENARIOS[0], "kind": CONCENTRATION, "A": Decimal(8, 0)}, record)


def site_of(case):
    header = write_header(bytes(BLOCK), case.medium, 1, case.scenario)
    contaminant = write_contaminant(bytes(BLOCK), 1, case.record)
    assert header[0] == contaminant[0] == 0
    return header[1] + contaminant[1]


def example_site():
    return site_of(example_case())


def tritium_site():
    return site_of(tritium_case())


def skin_site():
    return site_of(skin_case())


def concentration_site(medium):
    return site_of(concentration_case(medium))
