"""Test sites for the call over a whole site, from a seed.

    for name, site, room in sites(seed): ...

gives without end the name of a test site, its bytes, and the length of the output to lend. The sites come from families,
one of each in turn. A family that lists all of its sites drops out when they are used up; the others go on at random. A
name begins with its family. Where the maker knows what has to be sent back the name ends with it: "; refused 4 block 2".
"""
import itertools
import random

from guideline_records import (HARD_NUMBERS, HOUSE_FACTORS, ON_SKIN, USUAL, Case, random_classes, random_decimal,
                               random_valid_case, with_carry)
from concentration_sites import (block_kinds, capped_in_air, classes_in_air, damaged_in_air, exact_in_air, extreme_in_air, hard_in_sites,
                                 ignored_in_air, in_air, missing_in_air, near_in_air, zero_hours)
from house_sites import missing_house, mixed_classes, mixed_in_many, tritium_in_soil, without_house
from saturation_sites import absent_inhalation, capped_sides, exact_saturations, ignored_saturation, near_saturation
from second.blocks import BLOCK, CONTAMINANT_PLACES, HEADER_PLACES, WORD, with_last_word, word
from second.decimals import ZERO, Decimal
from second.guideline import ACCEPTED, CHECK, COUNT, KIND, LENGTH, ORDER, PATHWAY, ROOM
from second.sites import LONGEST
from second.terms import CHEMICAL, CONTAMINANT_VALUES, RADIONUCLIDE, RISK, SIDES, TRITIUM, WATER
from site_faults import BROKEN_FIELDS, are_apart, put_word
from site_naming import any_room, interleaved, lent, planned, refusal, room_for, short_room, shuffled
from site_parts import CLASSES, KINDS, MEDIA, ONE, Site, full_site, plausible_site, quick_site, some_ids, with_decimals
from site_targets import BESIDE_SUMS, with_concentrations_near, with_targets_near
from skin_sites import capped_on_skin, extreme_on_skin, hard_ages_in_sites, ignored_on_skin, missing_on_skin, near_on_skin, one_age


# The refusals that can be made in a block at each place of a short site, in the order of their tests.
IN_BLOCK = {0: (2, 3, 4, 5, 6), 1: (2, 3, 4, 12, 8), **dict.fromkeys((2, 3), (2, 3, 4, 7, 12, 8))}
# Where the last field of a header ends, and that of a contaminant.
HEADER_END, CONTAMINANT_END = (max(places.values()) + 8 for places in (HEADER_PLACES, CONTAMINANT_PLACES))
# The most blocks of an older site that is made one by concentration.
MOST_IN_AIR = 31


def missing_values(source):
    """Every combination of missing toxicity values for each medium and class, alone or after a sound record."""
    names = [name for name in CONTAMINANT_VALUES if name in USUAL and name not in ("C", "Csat")]
    for (medium, klass), known in shuffled(source, itertools.product(KINDS, itertools.product((True, False), repeat=7))):
        site = full_site(source, source.choice((1, 1, 2)), medium, klass)
        site.records[-1].update({name: ZERO for name, is_known in zip(names, known) if not is_known})
        if source.randrange(2):
            site.scenario["PEF"] = ZERO
        kept = " ".join(name for name, is_known in zip(names, known) if is_known) or "nothing"
        yield lent(source, f"missing values: {MEDIA[medium]} {CLASSES[klass]}, known {kept}", site.content())


def missing_factors(source):
    """Every combination of missing scenario factors for each medium and class."""
    names = ("IR", "IRA", "PEF", "ET", "RF", "SA")
    for (medium, klass), known in shuffled(source, itertools.product(KINDS, itertools.product((True, False), repeat=6))):
        site = full_site(source, 1, medium, klass)
        if source.randrange(2):
            site.records[0]["VF"] = ZERO
        site.scenario.update({name: ZERO for name, is_known in zip(names, known) if not is_known})
        kept = " ".join(name for name, is_known in zip(names, known) if is_known) or "nothing"
        yield lent(source, f"missing factors: {MEDIA[medium]} {CLASSES[klass]}, known {kept}", site.content())


def extreme_decimals(source):
    """The least and greatest inputs, in one place and in many, and values written with trailing zeros: soil on skin stays as it is."""
    groups = [(name,) for name in USUAL]
    values = tuple(name for name in USUAL if name in CONTAMINANT_VALUES)
    others = tuple(name for name in USUAL if name not in ("TR", "THI", *CONTAMINANT_VALUES))
    groups += [USUAL, ("TR", "THI"), values, others, ("F", "N", "S", "V"), HOUSE_FACTORS]
    extremes = [Decimal(1, -20), Decimal(1, 20), Decimal(999_999_999, -20), Decimal(999_999_999, 20), Decimal(1000, -3)]
    for names, d in shuffled(source, itertools.product(groups, extremes)):
        site = with_decimals(full_site(source, source.choice((1, 2))), {name: d for name in names})
        what = names[0] if len(names) == 1 else f"{len(names)} decimals"
        yield lent(source, f"extreme decimals: {what} {d.m}e{d.e}; accepted", site.content())
    while True:
        site = full_site(source, source.choice((1, 2, 3)))
        names = source.sample(USUAL, source.randint(2, len(USUAL)))
        with_decimals(site, {name: source.choice(extremes) for name in names})
        yield lent(source, f"extreme decimals: any, {len(names)}; accepted", site.content())


def near_target(source):
    """The target put just below, on and just above the sums."""
    listed = ((full_site(source, 1, *kind), dict.fromkeys(SIDES, place))
              for kind, place in shuffled(source, itertools.product(KINDS, BESIDE_SUMS)))
    endless = ((plausible_site(source, source.choice((1, 2, 3, 3, 8))), {side: source.choice(BESIDE_SUMS) for side in SIDES})
               for _ in itertools.count())
    for site, names in itertools.chain(listed, endless):
        site = with_targets_near(source, site, names)
        if site is not None:
            yield lent(source, f"near target: {', '.join(names.values())}; accepted", site.content())


def near_concentration(source):
    """Concentrations for which the sum comes close to the target."""
    while True:
        site = plausible_site(source, source.choice((1, 1, 2, 3)))
        side = source.choice(SIDES)
        site = with_concentrations_near(source, site, side)
        if site is not None:
            yield lent(source, f"near concentration: {side}; accepted", site.content())


def exact_targets(source):
    """Terms that are exactly 1, so that the sum is the sum of the concentrations: on the target and beside it."""
    ones = {name: ONE for name in USUAL}
    lists = [[(100_000_000, -8)], [(999_999_999, -9)], [(1, 0)], [(1000, -3)], [(5, -1), (5, -1)], [(1, -1)] * 10,
             [(1, 0), (5, -9), (5, -9)], [(1, 0), (1, -20)], [(999_999_999, -9), (1, -9)],
             [(999_999_998, -9), (15, -10), (5, -10)]]
    targets = [Decimal(1, 0), Decimal(10, -1), Decimal(100_000_001, -8), Decimal(999_999_999, -9), Decimal(100_000_002, -8)]
    for concentrations, target in shuffled(source, itertools.product(lists, targets)):
        records = [{"class": RADIONUCLIDE, "id": number, "SFo": ONE, "C": Decimal(*c)}
                   for number, c in enumerate(concentrations, 1)]
        content = Site(WATER, {**ones, "TR": target}, records).content()
        yield lent(source, f"exact target: {len(records)} records, {target.m}e{target.e}; accepted", content)


def hard_roundings(source):
    """Factors of nine digits, factors whose quotients never end, and products that round up to a power of ten.

    The saturation is no factor: it stays as it is; so does what soil on skin needs where the site has none.
    """
    def hard_names(site):
        return [name for name in (*USUAL, *(ON_SKIN if site.scenario["AF"] != ZERO else ())) if name != "Csat"]

    for m, kind in shuffled(source, itertools.product((999_999_999, 100_000_001, 333_333_334), KINDS)):
        site = full_site(source, 1, *kind)
        site = with_decimals(site, {name: Decimal(m, -4) for name in hard_names(site)})
        yield lent(source, f"hard roundings: {m} throughout; accepted", site.content())
    while True:
        site = full_site(source, source.choice((1, 2, 3)))
        names = hard_names(site)
        for factors in (site.scenario, *site.records):
            factors.update({name: Decimal(source.choice(HARD_NUMBERS), source.randint(-9, 3)) for name in names if name in factors})
        case = with_carry(Case(site.medium, site.scenario, site.records[0]), source)
        if source.randrange(2):
            site.scenario, site.records[0] = case.scenario, case.record
        yield lent(source, "hard roundings: mixed; accepted", site.content())


def small_shares(source):
    """One great share and many small ones, each of which moves the upper sum by one unit and the lower by none."""
    for count in itertools.chain((3, 120), (source.choice((2, 3, 5, 12)) for _ in itertools.count())):
        site = quick_site(source, count)
        with_decimals(site, {"IR": ONE, "EF": ONE, "ED": ONE, "SFo": Decimal(100_000_000 + source.randrange(3), -15)})
        for record in site.records:
            record["C"] = Decimal(source.randint(1, 999), -20)
        source.choice(site.records)["C"] = Decimal(100_000_001, -4)
        place = source.choice(("one below lower", "on lower", "exact up", "one below upper", "on upper"))
        yield lent(source, f"small shares: {count}, {place}; accepted", with_targets_near(source, site, {RISK: place}).content())


def zero_concentrations(source):
    """No concentration at all: within where there is a pathway, none where there is not."""
    for number in itertools.count():
        site = plausible_site(source, 1 + number % 3)
        for record in site.records:
            record["C"] = ZERO
            if number % 4 == 1:
                record["class"] = RADIONUCLIDE
            if number % 4 == 2:
                # Without risk, or without hazard.
                record.update({name: ZERO for name in source.choice((("SFo", "SFi"), ("RfDo", "RfDi")))})
        yield lent(source, f"zero concentrations: {len(site.records)}", site.content())


def one_side(source):
    """Lists in which no contaminant has a risk, or none a hazard, as tritium; concentrations are measured."""
    for number in itertools.count():
        missing = (("SFo", "SFi"), ("RfDo", "RfDi"))[number % 2]
        site = full_site(source, 1 + number % 3, klass=TRITIUM if number % 4 == 3 else CHEMICAL)
        for record in site.records:
            record.update(dict.fromkeys(missing, ZERO))
        yield lent(source, f"one side: without {' and '.join(missing)}; accepted", site.content())


def one_fault(source):
    """Every fault of a header; every fault of a contaminant in the first, a middle and the last block.

    But a fault of a decimal takes only one of these three places. Every refusal in every place comes early, and every sort
    of fault in some decimal before the same in another one.
    """
    cases, counts = [], (1, 1, 3, 3)
    for place, count in enumerate(counts):
        faults = site_with(source, count, {place: IN_BLOCK[place]}).faults(place)
        of_decimals = [number for number, fault in enumerate(faults) if fault.sort() in BROKEN_FIELDS]
        elsewhere = {number for rank, number in enumerate(of_decimals) if place > 0 and rank % 3 != place - 1}
        cases += [(place, number, fault) for number, fault in enumerate(faults) if number not in elsewhere]
    by_sort = interleaved(shuffled(source, cases), key=lambda case: case[2].sort())
    for place, number, made in interleaved(by_sort, key=lambda case: (case[0], case[2].number)):
        site = site_with(source, counts[place], {place: [made.number]})
        fault = site.faults(place)[number]
        yield lent(source, f"one fault: {fault.name}" + refusal(fault.number, place), site.with_faults({place: [fault]}))


def numbers_at(site, place):
    """The refusals that can be made in a block of this site: 12 not in every one."""
    return sorted({fault.number for fault in site.faults(place)})


def site_with(source, count, numbers):
    """A full site in which these refusals, which stand by place, can be made."""
    while True:
        site = full_site(source, count)
        if all(set(of_block) <= set(numbers_at(site, place)) for place, of_block in numbers.items()):
            return site


def fault_with(source, site, place, number):
    return source.choice([fault for fault in site.faults(place) if fault.number == number])


def some_fault(source, site, place):
    """A fault of this block; each refusal comes as often as any other."""
    return fault_with(source, site, place, source.choice(numbers_at(site, place)))


def two_in_one_block(source):
    """Two faults in one block: the one that is tested first is sent back."""
    cases = [(place, pair) for place in (0, 1, 2, 3) for pair in itertools.combinations(IN_BLOCK[place], 2)]
    endless = (source.choice(cases) for _ in itertools.count())
    # Every pair comes early.
    for place, pair in itertools.chain(interleaved(shuffled(source, cases), key=lambda case: case[1]), endless):
        site = site_with(source, 3, {place: pair})
        one, other = (fault_with(source, site, place, number) for number in pair)
        while not are_apart(site.blocks()[place], one, other):
            one, other = (fault_with(source, site, place, number) for number in pair)
        name = f"two in one block: {one.name}, {other.name}" + refusal(pair[0], place)
        yield lent(source, name, site.with_faults({place: [one, other]}))


def faults_in_two_blocks(source):
    """A fault in each of two blocks: the earlier block is sent back, whatever the numbers are."""
    places = [(0, 1), (0, 3), (1, 2), (1, 3), (2, 3)]
    cases = [(early, late, pair) for early, late in places for pair in itertools.product(IN_BLOCK[early], IN_BLOCK[late])]
    endless = (source.choice(cases) for _ in itertools.count())
    # Every pair comes early.
    for early, late, pair in itertools.chain(interleaved(shuffled(source, cases), key=lambda case: case[2]), endless):
        site = site_with(source, 3, {early: pair[:1], late: pair[1:]})
        one, other = fault_with(source, site, early, pair[0]), fault_with(source, site, late, pair[1])
        name = f"two blocks: {one.name}, then {other.name}" + refusal(pair[0], early)
        yield lent(source, name, site.with_faults({early: [one], late: [other]}))


def short_output(source):
    """An output that is too short: sent back last, and only when nothing else is wrong."""
    for number in itertools.count():
        site = full_site(source, 1 + number % 3)
        content = site.content()
        lengths = (0, 1, 512, len(content) - 512, len(content) - 1)
        room = lengths[number % 5] if number < 15 else short_room(source, len(content))
        yield f"short output: {room} of {len(content)}" + refusal(ROOM, 0), content, room
        place = source.randint(0, len(site.records))
        fault = some_fault(source, site, place)
        yield (f"short output: and {fault.name}" + refusal(fault.number, place), site.with_faults({place: [fault]}),
               short_room(source, len(content)))


def long_output(source):
    """An output that is longer than the site: the bytes after its end are left."""
    for number in itertools.count():
        content = plausible_site(source, 1 + number % 3).content()
        room = len(content) + (1, 2, 4, 511, 512, 513, 1024, 5000)[number % 8]
        yield f"long output: {room} for {len(content)}; accepted", content, room


def wrong_lengths(source):
    """(what, bytes) of sites whose length is refused."""
    small, large, larger = (quick_site(source, count).content() for count in (2, 121, 129))
    for length in (0, 1, 4, 511, 512, 513, 1023, 1025, 1279, 1535):
        yield "cut", small[:length]
        yield "zero", bytes(length)
    for length in (1537, 2047, 2049):
        yield "and zero bytes", small.ljust(length, b"\0")
    for length in (LONGEST - 1, LONGEST + 1, LONGEST + 256, LONGEST + 511, LONGEST + 512):
        yield "cut", large[:length]
    # The low sixteen bits of this length are 1024.
    yield "all blocks", larger
    yield "zero", bytes(LONGEST + 512)


def right_lengths(source):
    """(what, bytes) of sites whose length is right; the count, or the kind of the first block, may be wrong."""
    two = quick_site(source, 2)
    one = Site(two.medium, two.scenario, two.records[:1])
    yield "shortest; accepted", one.content()
    yield "two records; accepted", two.content()
    yield "count 1 with two records" + refusal(COUNT, 0), one.content() + two.blocks()[2]
    yield "count 1 and a zero block" + refusal(COUNT, 0), one.content() + bytes(BLOCK)
    yield "count 2 with one record" + refusal(COUNT, 0), two.content()[:1024]
    yield "longest; accepted", quick_site(source, 120).content()
    yield "one block under the longest; accepted", quick_site(source, 119).content()
    yield "count 120 with 119 records" + refusal(COUNT, 0), quick_site(source, 120).content()[:-BLOCK]
    for length in (1024, 1536, LONGEST):
        yield "zero" + refusal(KIND, 0), bytes(length)
        yield "255 throughout" + refusal(CHECK, 0), b"\xff" * length


def lengths(source):
    """Every length of interest, right and wrong."""
    cases = [(f"{what}" + refusal(LENGTH, 0), content) for what, content in wrong_lengths(source)]
    for what, content in shuffled(source, cases + list(right_lengths(source))):
        yield lent(source, f"lengths: {len(content)} bytes, {what}", content)


def length_and_faults(source):
    """A wrong length, and a fault in a block as well: the length is sent back."""
    while True:
        site = full_site(source, 2)
        place = source.randint(0, 2)
        fault = some_fault(source, site, place)
        content = site.with_faults({place: [fault]})
        cut = source.choice((1, 4, 100, 511, 513, 1023))
        yield lent(source, f"length and faults: {cut} bytes cut, {fault.name}" + refusal(LENGTH, 0), content[:-cut])


def id_orders(source):
    """Ids at the ends of a word and around its sign, rising or not."""
    marks = (1, 2, 255, 256, 2**31 - 1, 2**31, 2**31 + 1, WORD - 2, WORD - 1)
    for one, other in shuffled(source, itertools.product(marks, repeat=2)):
        site = full_site(source, 2)
        site.records[0]["id"], site.records[1]["id"] = one, other
        ending = "; accepted" if one < other else refusal(ORDER, 2)
        yield lent(source, f"ids: {one}, {other}{ending}", site.content())


def many_blocks(source):
    """One damaged block among many sound ones, or none."""
    for count in itertools.chain((120, 20), (source.choice((8, 8, 12, 12, 20, 30, 60, 120)) for _ in itertools.count())):
        site = (quick_site if count > 20 and source.randrange(4) else full_site)(source, count)
        place = source.choice((0, 1, source.randint(1, count), source.randint(1, count), count, None))
        if place is None:
            yield lent(source, f"many blocks: {count}; accepted", site.content())
            continue
        fault = some_fault(source, site, place)
        name = f"many blocks: {count}, {fault.name}" + refusal(fault.number, place)
        yield lent(source, name, site.with_faults({place: [fault]}))


def bit_flips(source):
    """One bit of a sound site changed, with the last word put right or not."""
    for number in itertools.count():
        blocks = plausible_site(source, 1 + number % 3).blocks()
        place = source.randrange(len(blocks))
        # Most of a block is unused: half of the flips are in the bytes that have a meaning.
        at = source.choice((source.randrange(BLOCK), source.randrange(HEADER_END if place == 0 else CONTAMINANT_END)))
        bit = 1 << source.randrange(8)
        block = bytearray(blocks[place])
        block[at] ^= bit
        repaired = source.randrange(3) > 0
        blocks[place] = with_last_word(bytes(block)) if repaired else bytes(block)
        ending = ", last word put right" if repaired else refusal(CHECK, place)
        yield lent(source, f"bit flips: byte {at} of block {place} by {bit}{ending}", b"".join(blocks))


def kept_totals(source):
    """Changes that leave the words of a block adding to zero: two words exchanged, or one raised and another lowered."""
    for number in itertools.count():
        blocks = plausible_site(source, 1 + number % 3).blocks()
        place = source.randrange(len(blocks))
        one, other = (4 * at for at in source.sample(range(HEADER_END // 4), 2))
        first, second = word(blocks[place], one), word(blocks[place], other)
        if number % 2:
            first, second = second, first
        else:
            more = source.choice((1, 2, 1000, 2**16, 2**31))
            first, second = (first + more) % WORD, (second - more) % WORD
        blocks[place] = put_word(other, second)(put_word(one, first)(blocks[place]))
        yield lent(source, f"kept totals: words at {one} and {other} of block {place}", b"".join(blocks))


def exchanged_blocks(source):
    """Whole blocks exchanged, repeated, dropped or made zero."""
    for number in itertools.count():
        blocks = full_site(source, 3).blocks()
        one, other = sorted(source.sample(range(4), 2))
        if number % 4 == 0:
            blocks[one], blocks[other] = blocks[other], blocks[one]
            what = f"{one} and {other} exchanged" + refusal(CHECK, one)
        elif number % 4 == 1:
            blocks[other] = blocks[one]
            what = f"{one} in place of {other}" + refusal(CHECK, other)
        elif number % 4 == 2:
            blocks[one] = bytes(BLOCK)
            # A zero block adds to zero and has place 0, but no kind.
            what = f"{one} zero" + refusal(CHECK if one else KIND, one)
        else:
            del blocks[one]
            what = f"{one} dropped" + refusal(CHECK if one == 0 else COUNT, 0)
        yield lent(source, f"exchanged blocks: {what}", b"".join(blocks))


def plausible_sites(source):
    """Sites such as a consultant would have, some values missing."""
    while True:
        count = source.choice((1, 1, 2, 3, 5))
        yield lent(source, f"plausible: {count}; accepted", plausible_site(source, count).content())


def random_sites(source):
    """Inputs of every size, values missing anywhere, at times a fault."""
    while True:
        count = source.choice((1, 1, 1, 2, 2, 3, 6))
        classes, on_skin = random_classes(source), source.randrange(5) < 2
        case = random_valid_case(source, classes[-1:], on_skin)
        site = Site(case.medium, case.scenario, [random_valid_case(source, classes, on_skin).record for _ in range(count)])
        for record, number in zip(site.records, some_ids(source, count)):
            record["id"] = number
            if source.randrange(3):
                # In either medium and class these are enough for a pathway.
                record["SFo"] = random_decimal(source)
                site.scenario["IR"] = site.scenario["IR"] if site.scenario["IR"].m else random_decimal(source)
        faults = {}
        if source.randrange(5) == 0:
            place = source.randint(0, count)
            faults[place] = [source.choice(site.faults(place))]
        content = site.with_faults(faults)
        yield f"random: {count}", content, source.choice((room_for, room_for, room_for, any_room))(source, len(content))


# Each family by intake, and how many of its sites come in one round.
BY_INTAKE = (
    (missing_values, 4), (missing_factors, 2), (missing_house, 1), (extreme_decimals, 1), (near_target, 2), (near_concentration, 1),
    (exact_targets, 1), (hard_roundings, 1), (small_shares, 1), (zero_concentrations, 1), (one_side, 1), (one_fault, 6),
    (two_in_one_block, 2), (faults_in_two_blocks, 2), (mixed_classes, 2), (mixed_in_many, 1), (without_house, 1),
    (tritium_in_soil, 1), (short_output, 1), (long_output, 1), (lengths, 1),
    (length_and_faults, 1), (id_orders, 1), (many_blocks, 1), (bit_flips, 1), (kept_totals, 1), (exchanged_blocks, 1),
    (plausible_sites, 1), (random_sites, 2), (near_saturation, 1), (exact_saturations, 1), (capped_sides, 1),
    (absent_inhalation, 1), (ignored_saturation, 1), (missing_on_skin, 2), (one_age, 1), (hard_ages_in_sites, 1), (near_on_skin, 1),
    (capped_on_skin, 1), (ignored_on_skin, 1), (extreme_on_skin, 1),
)


def older_in_air(source):
    """A site of each family by intake in turn, with a header of kind 6, A, U and Q, but for the longest.

    What was planned to be sent back stays so where it is tested before the pathways and before the room: in the header and the first
    contaminant.
    """
    most = max(turns for _, turns in BY_INTAKE)
    streams = [family_sites(family, source.randrange(2**32)) for turn in range(most) for family, turns in BY_INTAKE if turn < turns]
    while True:
        for name, content, room in itertools.chain.from_iterable(itertools.islice(stream, 1) for stream in streams):
            number, block = planned(name) or (ACCEPTED, 0)
            if len(content) > MOST_IN_AIR * BLOCK:
                continue
            stays = number not in (ACCEPTED, PATHWAY, ROOM) and block <= 1
            what = name if stays else name.rpartition(";")[0] or name
            yield f"older in air: {what}", in_air(source, content), room


FAMILIES = (*BY_INTAKE, (missing_in_air, 1), (zero_hours, 1), (ignored_in_air, 1), (classes_in_air, 1), (capped_in_air, 1), (near_in_air, 2),
            (exact_in_air, 1), (hard_in_sites, 2), (extreme_in_air, 1), (block_kinds, 1), (damaged_in_air, 2), (older_in_air, 8))


def family_sites(family, seed):
    """The sites of one family."""
    return family(random.Random(f"{seed} {family.__name__}"))


def sites(seed):
    """Name, bytes and output length of each test site, without end; the same for the same seed."""
    streams = [(family_sites(family, seed), turns) for family, turns in FAMILIES]
    while True:
        for stream, turns in streams:
            # One that is used up gives nothing.
            yield from itertools.islice(stream, turns)
