"""Families of test sites by concentration, whose header has kind 6, and of such by intake with A, U and Q: what inhalation needs, A zero,
what is ignored, the other classes, the saturation, sums close to the target, the kinds of blocks, damaged fields, extremes, roundings."""
import itertools
import struct

from concentration_cases import BY_INTAKE, GREATEST, LEAST, NEEDED, hard_in_air, is_inhaled, unit_air_case
from guideline_records import IN_AIR, NOT_IN_AIR, Case, moved, uncapped, with_carry_in_air
from saturation_sites import BESIDE, saturation_for
from second.blocks import BLOCK, CONTAMINANT, CONTAMINANT_PLACES, HEADER_PLACES, LAST_WORD, WORD, field_bytes, with_last_word, word
from second.decimals import ZERO, Decimal, keeps_input_rule
from second.guideline import CHECK, COUNT, FACTOR, FIELD, HOUSE, KIND, ORDER, PATHWAY, has_any_pathway
from second.terms import CHEMICAL, CONCENTRATION, INTAKE, RADIONUCLIDE, SCENARIO_FACTORS, SIDES, SOIL, TRITIUM, WATER, inputs_of
from site_faults import are_apart, put_word
from site_naming import interleaved, lent, refusal, shuffled
from site_parts import (CLASSES, KINDS, MEDIA, Site, full_record, full_site, plausible, plausible_site, some_ids, with_air, with_decimals,
                        written_shorter)
from site_targets import BESIDE_SUMS, with_concentrations_near, with_targets_near

KIND_NAMES = {INTAKE: "by intake", CONCENTRATION: "by concentration"}


def air_site(source, count, medium=None, klass=CHEMICAL, kind=CONCENTRATION):
    """A site whose records have this class, every value and factor known but for saturations, at times with soil on skin; by concentration
    or, with A, U and Q all the same, by intake."""
    return with_air(source, full_site(source, count, medium, klass), kind)


def inhaled_alone(site):
    """The site without ingestion and skin of chemicals, so that inhalation is their only pathway."""
    site.scenario.update(dict.fromkeys(("IR", "SA", "AF"), ZERO))
    return site


def missing_in_air(source):
    """Every combination of what inhalation of a chemical needs by concentration, where it is the only pathway, at times after a
    radionuclide; what it needs by intake is there or not.

    Those that make the pathway and those that do not take turns while there are both.
    """
    listed = [(medium, known) for medium, names in NEEDED.items()
              for size in range(len(names) + 1) for known in itertools.combinations(names, size)]
    for medium, known in interleaved(shuffled(source, listed), key=lambda case: is_inhaled(*case)):
        first = source.choice(((), (), (RADIONUCLIDE,))) if medium == SOIL else ()
        site = inhaled_alone(air_site(source, len(first) + 1, medium))
        for record, klass in zip(site.records, first):
            record.update(full_record(source, klass, record["id"]))
        missing = [name for name in NEEDED[medium] if name not in known] + (list(BY_INTAKE) if not first and source.randrange(2) else [])
        with_last_decimals(site, dict.fromkeys(missing, ZERO))
        ending = "; accepted" if is_inhaled(medium, known) else refusal(PATHWAY, len(site.records))
        yield lent(source, f"missing in air: {MEDIA[medium]}, known {' '.join(known) or 'nothing'}{ending}", site.content())


def with_last_decimals(site, decimals):
    """The site with these decimals by name, in the scenario and in its last record."""
    for factors in (site.scenario, site.records[-1]):
        factors.update({name: d for name, d in decimals.items() if name in factors})
    return site


def zero_hours(source):
    """A zero: by concentration chemicals are not inhaled, by intake and for the other classes it changes nothing."""
    listed = [(*of_site, kind, False) for of_site in KINDS for kind in KIND_NAMES]
    listed += [(medium, CHEMICAL, kind, True) for medium in MEDIA for kind in KIND_NAMES]
    for medium, klass, kind, alone in itertools.cycle(interleaved(shuffled(source, listed), key=lambda case: (case[1] == CHEMICAL, case[2]))):
        site = air_site(source, source.choice((1, 1, 2)), medium, klass, kind)
        site.scenario["A"] = ZERO
        if alone:
            inhaled_alone(site)
        ending = refusal(PATHWAY, 1) if alone and kind == CONCENTRATION else "; accepted"
        what = f"{MEDIA[medium]} {CLASSES[klass]}, {KIND_NAMES[kind]}, {'alone' if alone else 'beside others'}"
        yield lent(source, f"zero hours: {what}{ending}", site.content())


def ignored_in_air(source):
    """What moves nothing: A, U and Q by intake and of the other classes, and by concentration what the inhalation of a chemical needs by
    intake. One that breaks the rule of a decimal is refused, in the header or in its record."""
    listed = [(INTAKE, *of_site, IN_AIR) for of_site in KINDS]
    listed += [(CONCENTRATION, *of_site, IN_AIR if of_site[1] != CHEMICAL else BY_INTAKE) for of_site in KINDS]
    for (kind, medium, klass, names), is_broken in itertools.cycle(shuffled(source, itertools.product(listed, (False, True)))):
        # Mostly so great that inhalation would move every total.
        d = source.choice((GREATEST, GREATEST, LEAST, ZERO))
        site = with_decimals(air_site(source, source.choice((1, 2)), medium, klass, kind), dict.fromkeys(names, d))
        name = f"ignored in air: {MEDIA[medium]} {CLASSES[klass]}, {KIND_NAMES[kind]}"
        if not is_broken:
            yield lent(source, f"{name}; accepted", site.content())
            continue
        wrong = source.choice(names)
        place = 0 if wrong in SCENARIO_FACTORS else len(site.records)
        every = site.faults(place) + site.air_faults(place)
        fault = source.choice([fault for fault in every if fault.name.startswith(f"{wrong} ")])
        yield lent(source, f"{name}, {fault.name}" + refusal(FIELD, place), site.with_faults({place: [fault]}))


def classes_in_air(source):
    """Lists by concentration in which radionuclides and tritium, which keep their formulas, stand alone or beside chemicals."""
    together = [(SOIL, RADIONUCLIDE), (SOIL, None), (WATER, RADIONUCLIDE), (WATER, TRITIUM), (WATER, None)]
    for number, (medium, klass) in enumerate(itertools.cycle(together)):
        site = air_site(source, source.choice((1, 2, 3)), medium, klass)
        what = ", ".join(CLASSES[record["class"]] for record in site.records)
        if number % 2:
            site = with_targets_near(source, site, {side: source.choice(BESIDE_SUMS) for side in SIDES})
        if site is not None:
            yield lent(source, f"classes in air: {MEDIA[medium]} {what}; accepted", site.content())


def capped_in_air(source):
    """A saturation beside the inhalation guideline of a side, far below both or far above both, mostly by concentration, and in water,
    where it is ignored."""
    listed = [*itertools.product(range(2), BESIDE), (0, "both"), (1, "neither")]
    for number, (side, where) in enumerate(itertools.cycle(shuffled(source, listed))):
        kind = INTAKE if number % 4 == 3 else CONCENTRATION
        site = air_site(source, source.choice((1, 1, 2)), WATER if number % 8 == 6 else SOIL, CHEMICAL, kind)
        record = source.choice(site.records)
        found = uncapped(Case(site.medium, site.scenario, record))
        saturation = moved(found[side], BESIDE[where]) if where in BESIDE else saturation_for(source, found, where)
        if keeps_input_rule(saturation):
            record["Csat"] = written_shorter(source, saturation)
            what = f"{MEDIA[site.medium]} {KIND_NAMES[kind]}, {SIDES[side]}, {where}"
            yield lent(source, f"capped in air: {what}; accepted", site.content())


def near_in_air(source):
    """Targets just below, on and just above the sums by concentration, and concentrations for which these come close to the target."""
    for number in itertools.count():
        if source.randrange(3):
            site = air_site(source, source.choice((1, 1, 2, 3)), klass=source.choice((CHEMICAL, CHEMICAL, None)))
            if source.randrange(2):
                inhaled_alone(site)
        else:
            site = with_air(source, plausible_site(source, source.choice((1, 2, 3))))
        if lacks_pathway(site):
            continue
        if number % 2:
            side = source.choice(SIDES)
            site, what = with_concentrations_near(source, site, side), f"concentration, {side}"
        else:
            places = {side: source.choice(BESIDE_SUMS) for side in SIDES}
            site, what = with_targets_near(source, site, places), ", ".join(places.values())
        if site is not None:
            yield lent(source, f"near in air: {what}; accepted", site.content())


def lacks_pathway(site):
    """Whether a record has no pathway, as a radionuclide in water where there is no ingestion."""
    return any(not has_any_pathway(site.medium, record, inputs_of(site.scenario, record)) for record in site.records)


def exact_in_air(source):
    """Inhalation terms that are 1, so that the targets are the guidelines and a concentration of 1 is the sum: targets on the sum and one
    unit beside it, saturations below, on, between and above the targets."""
    one, below, above = Decimal(1, 0), Decimal(999_999_999, -9), Decimal(100_000_001, -8)
    saturations = (ZERO, LEAST, below, one, above, Decimal(10, -1), GREATEST)
    for medium, risk, hazard, saturation in shuffled(source, itertools.product(MEDIA, (one, below, above), (one, below, above), saturations)):
        case = unit_air_case(risk, hazard, saturation, medium)
        name = f"exact in air: {MEDIA[medium]}, {saturation.m}e{saturation.e}, risk {risk.m}e{risk.e}, hazard {hazard.m}e{hazard.e}"
        yield lent(source, f"{name}; accepted", Site(medium, case.scenario, [case.record]).content())


def hard_in_sites(source):
    """Inhalation terms whose roundings show in the guidelines, and in the sums of a concentration of 1; products that round up to a power
    of ten."""
    cases = hard_in_air(source)
    for number in itertools.count():
        case, what = next(cases), "no end"
        if number % 3 == 2:
            site = with_last_decimals(air_site(source, 1), {"C": Decimal(1, 0)})
            case, what = with_carry_in_air(Case(site.medium, site.scenario, site.records[0]), source), "carry"
        site = Site(case.medium, case.scenario, [{**case.record, "id": number} for number in some_ids(source, source.choice((1, 1, 2)))])
        yield lent(source, f"hard in air: {MEDIA[case.medium]}, {what}; accepted", site.content())


def extreme_in_air(source):
    """The least and greatest inputs, and one with trailing zeros: in A, U or Q, in all three, in all that inhalation needs, everywhere."""
    extremes = [LEAST, Decimal(1, 20), Decimal(999_999_999, -20), GREATEST, Decimal(1000, -3)]
    groups = [(name,) for name in IN_AIR] + [IN_AIR, (*NEEDED[SOIL], "EF", "ED"), ("A", "AT", "Q"), (*NOT_IN_AIR, *IN_AIR)]
    for names, d in shuffled(source, itertools.product(groups, extremes)):
        site = with_decimals(air_site(source, source.choice((1, 2)), source.choice(list(MEDIA))), dict.fromkeys(names, d))
        what = names[0] if len(names) == 1 else f"{len(names)} decimals"
        yield lent(source, f"extreme in air: {what} {d.m}e{d.e}; accepted", site.content())
    while True:
        site = air_site(source, source.choice((1, 2)), source.choice(list(MEDIA)))
        names = source.sample((*NOT_IN_AIR, *IN_AIR), source.randint(2, 30)) + list(IN_AIR)
        with_decimals(site, {name: source.choice(extremes) for name in names})
        yield lent(source, f"extreme in air: any, {len(names)}; accepted", site.content())


def block_kinds(source):
    """The numbers of kinds at the first and at later places of a site of either kind. Kinds 1 and 6 at the first place are accepted, and
    no other one; 2 is the only one at a later place, and a whole header there is refused as well."""
    first = (INTAKE, CONCENTRATION, 0, 2, 3, 4, 5, 7, 8, 257, 262, 6 + 2**16, 6 * 2**8, 6 * 2**24, 1 + 2**31, 6 + 2**31, WORD - 1, WORD - 6)
    later = (INTAKE, CONCENTRATION, 0, 3, 4, 5, 7, 258, 2 + 2**16, 2 * 2**8, 2 + 2**31, WORD - 2, "header")
    listed = [(kind, 0, number) for kind in KIND_NAMES for number in first]
    listed += [(kind, place, number) for kind in KIND_NAMES for place in (1, 2) for number in later]
    cases = interleaved(shuffled(source, listed), key=lambda case: (case[1:] if case[2] in (*KIND_NAMES, 5, "header") else case[1]))
    for kind, place, number in itertools.chain(cases, (source.choice(listed) for _ in itertools.count())):
        site = air_site(source, source.choice((2, 2, 3)), klass=None, kind=kind)
        blocks = site.blocks()
        block = put_word(4, place)(blocks[0]) if number == "header" else put_word(0, number)(blocks[place])
        blocks[place] = with_last_word(block)
        ending = "; accepted" if place == 0 and number in KIND_NAMES else refusal(KIND, place)
        name = f"block kinds: {KIND_NAMES[kind]}, {number} at place {place}"
        yield lent(source, f"{name}{ending}", b"".join(blocks))


# The refusals that come with one of A, U and Q or of the bytes beside them, in a header and in a later block: those tested before 4, and
# some of those tested after it.
WITH_DAMAGE = {0: (CHECK, KIND, COUNT, FACTOR), 1: (CHECK, KIND, PATHWAY), 2: (CHECK, KIND, ORDER, HOUSE, PATHWAY)}


def damaged_in_air(source):
    """A, U and Q and the unused bytes beside them damaged in sites of either kind, in the header, the first or the second contaminant; one of
    three again with another fault in the same block, and the one tested first is sent back. Every decimal comes early, in its two zero bytes
    and elsewhere."""
    places = (0, 1, 2)
    faults = {place: [fault for fault in air_site(source, 2).air_faults(place) if fault.number == FIELD] for place in places}
    listed = [(kind, place, fault) for kind in KIND_NAMES for place in places for fault in faults[place]]
    cases = interleaved(shuffled(source, listed),
                        key=lambda case: (case[1] == 0, case[2].name.partition(" ")[0], "zero byte" in case[2].name))
    for number, (kind, place, fault) in enumerate(itertools.chain(cases, (source.choice(listed) for _ in itertools.count()))):
        site = air_site(source, 2, klass=None, kind=kind)
        name = f"damaged in air: {KIND_NAMES[kind]}, {fault.name}"
        yield lent(source, name + refusal(FIELD, place), site.with_faults({place: [fault]}))
        wanted = source.choice(WITH_DAMAGE[place])
        others = [other for other in site.faults(place) if other.number == wanted and are_apart(site.blocks()[place], fault, other)]
        if number % 3 == 2 and others:
            other = source.choice(others)
            sent = refusal(wanted if wanted in (CHECK, KIND) else FIELD, place)
            yield lent(source, f"{name}, {other.name}{sent}", site.with_faults({place: [fault, other]}))


def put_kept(block, at, content):
    """The block with these bytes, and a last word with which its words add to what they added to before."""
    changed = block[:at] + content + block[at + len(content):]
    more = sum(word(changed, place) - word(block, place) for place in range(0, LAST_WORD, 4))
    return put_word(LAST_WORD, (word(block, LAST_WORD) - more) % WORD)(changed)


def in_air(source, content):
    """The bytes of a site by intake with a header of kind 6, an A in it, and U and Q in each contaminant, at times zero: where the bytes of
    these are zero, and in whole blocks. A block that adds to zero still does, and another one still does not."""
    blocks = [content[at:at + BLOCK] for at in range(0, len(content), BLOCK)]
    for number, block in enumerate(blocks):
        if len(block) == BLOCK and word(block, 0) == (INTAKE if number == 0 else CONTAMINANT):
            if number == 0:
                block = put_kept(block, 0, struct.pack("<I", CONCENTRATION))
            for name, at in (HEADER_PLACES if number == 0 else CONTAMINANT_PLACES).items():
                if name in IN_AIR and not any(block[at:at + 8]) and source.randrange(8):
                    d = plausible(source, *{"A": (0, 0), "U": (-7, -3), "Q": (-4, 0)}[name])
                    block = put_kept(block, at, field_bytes(source.choice((d, d, d, d, LEAST, GREATEST))))
            blocks[number] = block
    return b"".join(blocks)
