"""The stored cases of the list call, the writers, the built-in scenarios and the decimals, and random ones of every call."""
import itertools

import site_maker
from call_frames import (AT_MOST, BUILT_IN, DECIMALS, GUIDELINE, LIST, OPERATIONS, WORKING, WRITE_CONTAMINANT, WRITE_HEADER,
                         built_in_call, contaminant_call, decimal_call, empty_call, guideline_call, header_call, list_call)
from concentration_cases import air_case, inhaled_alone
from guideline_maker import full_case, skin_case
from guideline_records import (HARD_NUMBERS, HOUSE_FACTORS, NOT_IN_AIR, ON_SKIN, REQUIRED, USUAL, just_below_power, random_case,
                               random_decimal)
from house_sites import house_site
from second.blocks import BLOCK, header_of, record_of
from second.decimals import ZERO, Decimal
from second.terms import (CHEMICAL, CONCENTRATION, CONTAMINANT_VALUES, INTAKE, RADIONUCLIDE, SCENARIO_FACTORS, SOIL, TRITIUM,
                          WATER)
from site_parts import CLASSES, full_site, quick_site

ROOMS = (0, 511, 512, 513, 1024)
FIELD_FAULTS = (Decimal(1_000_000_000, 0), Decimal(1, 21), Decimal(1, -21), Decimal(0, 1))
# How many sites of a family of site_maker.py are stored as lists, and how many records they may have.
STORED_LISTS = {"missing_values": 12, "missing_factors": 8, "extreme_decimals": 12, "near_target": 30, "near_concentration": 12,
                "exact_targets": 24, "hard_roundings": 12, "small_shares": 6, "zero_concentrations": 8, "one_side": 6,
                "two_in_one_block": 24, "faults_in_two_blocks": 24, "id_orders": 10, "plausible_sites": 14, "mixed_classes": 16,
                "without_house": 10, "tritium_in_soil": 6, "missing_house": 16, "near_saturation": 4, "exact_saturations": 4,
                "capped_sides": 4, "absent_inhalation": 8, "ignored_saturation": 10, "missing_on_skin": 5, "one_age": 3,
                "hard_ages_in_sites": 5, "near_on_skin": 4, "capped_on_skin": 1, "ignored_on_skin": 2, "extreme_on_skin": 2,
                "missing_in_air": 4, "zero_hours": 4, "ignored_in_air": 4, "classes_in_air": 3, "capped_in_air": 1, "near_in_air": 5,
                "exact_in_air": 4, "hard_in_sites": 3, "extreme_in_air": 2, "damaged_in_air": 4, "older_in_air": 5}
MOST_RECORDS = 10
RANDOM_FAMILIES = (*STORED_LISTS, "one_fault", "many_blocks", "mixed_in_many", "random_sites")

# Operands at the ends of their range and beside powers of ten, and decimals that are no operands.
OPERANDS = (ZERO, Decimal(100_000_000, 0), Decimal(999_999_999, 999), Decimal(100_000_001, -9), Decimal(333_333_334, 3),
            Decimal(999_999_999, -8), Decimal(100_000_000, -999))
NO_OPERANDS = (Decimal(12_345_678, 0), Decimal(1_000_000_000, 0), Decimal(2**32 - 1, 0), Decimal(100_000_000, 1000),
               Decimal(100_000_000, -1000), Decimal(0, 5), Decimal(0, -1), Decimal(1, 0), Decimal(100_000_000, 2**15 - 1),
               Decimal(100_000_000, -(2**15)))


def list_of_site(content):
    """The list call on what the blocks of a site hold, whatever their checks say."""
    blocks = [content[at:at + BLOCK] for at in range(0, len(content) - BLOCK + 1, BLOCK)]
    medium, _, scenario = header_of(blocks[0])
    return list_call(medium, scenario, [record_of(block) for block in blocks[1:]])


def family_lists(name, seed):
    """The sites of a family as lists, but for those that have no whole header or over 121 records."""
    for _, content, _ in site_maker.family_sites(getattr(site_maker, name), seed):
        if BLOCK <= len(content) < BLOCK * 123:
            yield content


def lists_by_length(source):
    """Lists of every length beside the ends of the rule: 0, 1, 2, 120 and 121 records; 1 before 4 and 6."""
    for count in (0, 1, 2, 7, 120, 121):
        site = (full_site if count < 100 else quick_site)(source, count)
        yield list_call(site.medium, site.scenario, site.records)
    for count in (0, 1):
        site = full_site(source, count)
        yield list_call(3, site.scenario, site.records)
        yield list_call(site.medium, {**site.scenario, "EF": ZERO}, site.records)


def changed_record(record, number, previous_id):
    """The record with what refusal 4, 7, 8 or 12 asks for; 12 where tritium cannot be."""
    if number == 7:
        return {**record, "id": previous_id}
    if number == 8:
        return {**record, **dict.fromkeys(CONTAMINANT_VALUES, ZERO)}
    return {**record, "class": TRITIUM} if number == 12 else {**record, "RfDi": Decimal(0, 1)}


def with_changes(site, place, numbers):
    """The list call on the site whose record at this place, from 0, has what each of these refusals asks for.

    From 12 down, since 8 makes every value zero and 4 then breaks one.
    """
    records = list(site.records)
    for number in sorted(numbers, reverse=True):
        records[place] = changed_record(records[place], number, records[place - 1]["id"])
    return list_call(site.medium, site.scenario, records)


def lists_with_faults(source):
    """Each refusal of a record in each place of a list of four and in the last of 120; 4, 7, 12, 8 at once in each combination."""
    soil, after_chemicals = full_site(source, 4, SOIL), house_site(source, [CHEMICAL] * 4)
    for place, number in itertools.product(range(4), (4, 7, 12, 8)):
        if place > 0 or number != 7:
            yield with_changes(soil, place, [number])
    for site, size in itertools.product((soil, after_chemicals), (2, 3, 4)):
        for numbers in itertools.combinations((4, 7, 12, 8), size):
            yield with_changes(site, 2, numbers)
    long, longer = quick_site(source, 120), house_site(source, [CHEMICAL] + [RADIONUCLIDE] * 119)
    yield with_changes(long, 119, [7])
    yield with_changes(longer, 119, [12])


def lists_by_class(source):
    """Every list of three classes in water with a house; every list of two where L, W or both are zero, and in soil."""
    for classes in itertools.product(CLASSES, repeat=3):
        site = house_site(source, classes)
        yield list_call(site.medium, site.scenario, site.records)
    houses = [(WATER, names) for names in (("L",), ("W",), HOUSE_FACTORS)] + [(SOIL, ()), (SOIL, HOUSE_FACTORS)]
    for (medium, names), classes in itertools.product(houses, itertools.product(CLASSES, repeat=2)):
        site = house_site(source, classes, medium)
        yield list_call(medium, {**site.scenario, **dict.fromkeys(names, ZERO)}, site.records)


def lists_with_fields(source):
    """Refusals 4 and 6 in each decimal and word of a list."""
    site = full_site(source, 4)
    for name in SCENARIO_FACTORS:
        yield list_call(site.medium, {**site.scenario, name: FIELD_FAULTS[len(name) % 4]}, site.records[:1])
    for name in REQUIRED:
        yield list_call(site.medium, {**site.scenario, name: ZERO}, site.records[:1])
    for name in CONTAMINANT_VALUES:
        yield list_call(site.medium, site.scenario, [site.records[0], {**site.records[1], name: FIELD_FAULTS[len(name) % 4]}])
    for word, number in itertools.product(("class", "id"), (0, 3, 4, 2**32 - 1)):
        yield list_call(site.medium, site.scenario, [{**site.records[0], word: number}])


def stored_lists(source, seed):
    yield from lists_by_length(source)
    yield from lists_with_faults(source)
    yield from lists_by_class(source)
    yield from lists_with_fields(source)
    for name, number in STORED_LISTS.items():
        short = (content for content in family_lists(name, seed) if len(content) <= BLOCK * (MOST_RECORDS + 1))
        yield from map(list_of_site, itertools.islice(short, number))


def stored_writers():
    """Every room; each refusal alone, and two at once; counts and places beside the ends of their rule."""
    case = full_case(1, 2)
    numbers = (0, 1, 2, 3, 4, 119, 120, 121, 257, 2**32 - 1)
    for room in ROOMS:
        for count, scenario in ((3, case.scenario), (0, case.scenario), (3, {**case.scenario, "ED": ZERO})):
            yield header_call(room, 1, count, scenario)
        for place in (3, 0):
            yield contaminant_call(room, place, case.record)
    for number in numbers:
        yield header_call(600, 2, number, case.scenario)
        yield contaminant_call(600, number, case.record)
    for medium in (0, 3, 2**32 - 1):
        yield header_call(512, medium, 3, case.scenario)
    for word, number in itertools.product(("class", "id"), numbers):
        yield contaminant_call(512, 120, {**case.record, word: number})
    for place, name in enumerate(name for name in SCENARIO_FACTORS if name in USUAL):
        for d in (ZERO, FIELD_FAULTS[place % 4]):
            yield header_call(512, 1, 120, {**case.scenario, name: d})
            yield header_call(512, 1, 120, {**case.scenario, "AT": ZERO, name: d})
    for place, name in enumerate(name for name in CONTAMINANT_VALUES if name in NOT_IN_AIR):
        for fault in (ZERO, FIELD_FAULTS[place % 4], Decimal(999_999_999, -20)):
            yield contaminant_call(512, 1, {**case.record, name: fault})
    case = skin_case()
    yield header_call(512, 2, 120, case.scenario)
    for place, name in enumerate(name for name in SCENARIO_FACTORS if name in ON_SKIN):
        yield header_call(512, 1, 120, {**case.scenario, name: FIELD_FAULTS[place % 4]})


def stored_writers_in_air():
    """Headers of kind 6, and A, U and Q in blocks of either kind: written, at fault, and the other refusals of a writer."""
    case = air_case(SOIL)
    for kind in (INTAKE, CONCENTRATION):
        for place, d in enumerate((Decimal(999_999_999, -20), *FIELD_FAULTS)):
            yield header_call(512, 1 + place % 2, 120, {**case.scenario, "kind": kind, "A": d})
    for room, count, changes in ((513, 1, {}), (1024, 1, {"A": ZERO}), (511, 0, {}), (600, 121, {}), (600, 1, {"BW": ZERO}),
                                 (600, 1, {"IR": FIELD_FAULTS[0]})):
        yield header_call(room, 2, count, {**case.scenario, **changes})
    yield header_call(512, 1, 3, inhaled_alone(case).scenario)
    for place, name in enumerate(("U", "Q")):
        for d in (ZERO, FIELD_FAULTS[place], FIELD_FAULTS[place + 2], Decimal(999_999_999, -20)):
            yield contaminant_call(512, 1, {**case.record, name: d})


def marked_decimals():
    """The figures that the specification marks."""
    one, two, three, seven = (Decimal(n * 10**8, -8) for n in (1, 2, 3, 7))
    nines, tiny = Decimal(999_999_999, 0), Decimal(10**8, -28)
    for choice, (a, b) in itertools.product(range(len(OPERATIONS)), ((one, three), (two, three), (nines, nines), (nines, one),
                                                                    (one, tiny), (ZERO, seven))):
        yield decimal_call(choice, a, b)


def stored_decimals(source):
    choices = (*range(len(OPERATIONS)), AT_MOST)
    yield from marked_decimals()
    for a, b in itertools.product(OPERANDS, repeat=2):
        yield from (decimal_call(choice, a, b) for choice in choices)
    for bad in NO_OPERANDS:
        for a, b in ((bad, OPERANDS[1]), (OPERANDS[1], bad)):
            yield from (decimal_call(choice, a, b) for choice in (0, 2, 5, AT_MOST))
    # Products that round up to a power of ten, quotients that never end, sums of operands 0 to 12 places apart.
    for apart in range(13):
        yield from (decimal_call(choice, *just_below_power(source)) for choice in (0, 1))
        a, b = (source.randint(10**8, 10**9 - 1) for _ in range(2))
        yield from (decimal_call(choice, Decimal(a, apart), Decimal(b, 0)) for choice in range(2, 6))
    # Equal values, and values one unit apart, at either end of the digits.
    for a, b in (((10**8, 1), (999_999_999, 0)), ((10**8, -8), (10**8, -8)), ((10**8, 1), (10**8 + 1, 1)),
                 ((123_456_789, 5), (123_456_788, 5))):
        yield from (decimal_call(AT_MOST, *pair) for pair in itertools.permutations((Decimal(*a), Decimal(*b))))
    for d in (*NO_OPERANDS, *OPERANDS, *(Decimal(10**n, -20 + 4 * n) for n in range(9)), Decimal(7, 999), Decimal(7, -999)):
        yield decimal_call(WORKING, d)


def stored_calls(source, seed):
    """All but the single guideline's."""
    yield from stored_lists(source, seed)
    yield from stored_writers()
    yield from stored_writers_in_air()
    yield from map(built_in_call, (0, 1, 2, 3, 4, 257, 2**32 - 1))
    yield from stored_decimals(source)
    for case in ((0, 0, 0), (7, 0, 0), (2**32 - 1, 0, 0), (LIST, 0, 122), (WRITE_HEADER, 1025, 0), (WRITE_CONTAMINANT, 1025, 1)):
        yield empty_call(*case)


def random_operand(source):
    """Mostly an operand, at times one with far digits, at times none."""
    kind = source.randrange(8)
    if kind == 0:
        return source.choice(NO_OPERANDS + OPERANDS)
    m = source.choice(HARD_NUMBERS[:6]) if kind < 3 else source.randint(10**8, 10**9 - 1)
    return Decimal(m, source.choice((source.randint(-999, 999), source.randint(-12, 12))))


def random_call(source, lists):
    """A call of any kind; lists hands out the contents of random sites."""
    call = source.choice((GUIDELINE, GUIDELINE, LIST, LIST, WRITE_HEADER, WRITE_CONTAMINANT, DECIMALS, DECIMALS, DECIMALS,
                          BUILT_IN))
    if call == LIST:
        return list_of_site(next(lists))
    if call == BUILT_IN:
        return built_in_call(source.choice((0, 1, 2, 3, 4, source.randrange(2**32))))
    if call == DECIMALS:
        if source.randrange(12) == 0:
            return decimal_call(WORKING, random_decimal(source))
        return decimal_call(source.choice((*range(len(OPERATIONS)), AT_MOST)), random_operand(source), random_operand(source))
    case, room = random_case(source, in_air=source.randrange(2) == 0), source.choice((*ROOMS, source.randint(512, 1024)))
    if call == WRITE_HEADER:
        return header_call(room, case.medium, source.choice((1, 120, source.randint(0, 130))), case.scenario)
    if call == WRITE_CONTAMINANT:
        return contaminant_call(room, source.choice((1, 120, source.randint(0, 130))), case.record)
    return guideline_call(case)


def random_contents(source):
    """Contents of sites of the families, in turn, without end."""
    streams = [family_lists(name, source.randrange(2**32)) for name in RANDOM_FAMILIES]
    while True:
        for stream in streams:
            yield from itertools.islice(stream, 1)
