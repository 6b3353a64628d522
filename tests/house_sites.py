"""Families of test sites with tritium: the house values that it needs, the medium, and the classes beside it (refusal 12)."""
import itertools

from guideline_records import HOUSE_FACTORS
from second.decimals import ZERO
from second.guideline import HOUSE, ORDER, PATHWAY
from second.terms import CHEMICAL, CONTAMINANT_VALUES, RADIONUCLIDE, SOIL, TRITIUM, WATER
from site_naming import lent, refusal, shuffled
from site_parts import MEDIA, PERSON, WITH_HOUSE, Site, full_record, some_ids

# The factors of tritium's inhalation and skin that may be zero.
MAY_BE_ZERO = ("ET", "M", "F", "N", "S", "V", "K")


def house_site(source, classes, medium=WATER):
    """A site with a house whose records have these classes, with every factor and value known."""
    records = [full_record(source, klass, number) for klass, number in zip(classes, some_ids(source, len(classes)))]
    return Site(medium, {**PERSON, **WITH_HOUSE}, records)


def without_values(record):
    """The record without any value, so that it has no pathway."""
    record.update(dict.fromkeys(CONTAMINANT_VALUES, ZERO))


def mixed(source, classes, place):
    """The site of these classes of which the one at this place is refused; at times it is refused by 8 as well, or by 7 before."""
    site = house_site(source, classes)
    ending = refusal(HOUSE, place)
    kind = source.randrange(6)
    if kind == 0:
        without_values(site.records[place - 1])
    if kind == 1:
        site.records[place - 1]["id"] = site.records[place - 2]["id"]
        ending = refusal(ORDER, place)
    return site, ending


def mixed_classes(source):
    """Chemicals and tritium in one list: the later one is refused, with radionuclides before, between and behind them or none.

    Lists of radionuclides and of one other class, the same again after radionuclides, are accepted.
    """
    pairs = (CHEMICAL, TRITIUM), (TRITIUM, CHEMICAL)
    listed = itertools.product(pairs, (0, 1), (0, 1, 2), (0, 1))
    others = ((source.choice(pairs), source.choice((0, 1, 3)), source.choice((0, 4, 9)), source.choice((0, 2)))
              for _ in itertools.count())
    for number, ((one, other), before, between, behind) in enumerate(itertools.chain(shuffled(source, listed), others)):
        start = [RADIONUCLIDE] * before + [one]
        inside = [source.choice((RADIONUCLIDE, RADIONUCLIDE, one)) for _ in range(between)]
        classes = start + inside + [other] + [source.choice((one, RADIONUCLIDE, other)) for _ in range(behind)]
        site, ending = mixed(source, classes, len(start + inside) + 1)
        yield lent(source, f"mixed classes: {' '.join(map(str, classes))}{ending}", site.content())
        if number % 4 == 3:
            classes = start + inside + [RADIONUCLIDE, one]
            yield lent(source, f"mixed classes: {' '.join(map(str, classes))}; accepted", house_site(source, classes).content())


def mixed_in_many(source):
    """The classes that are refused in the last block of many, after the other one in the first or anywhere."""
    while True:
        one, other = shuffled(source, (CHEMICAL, TRITIUM))
        count = source.choice((8, 12, 30, 60, 120))
        classes = [RADIONUCLIDE] * count
        at = source.choice((0, 0, source.randrange(count - 1), count - 2))
        classes[at], classes[-1] = one, other
        site, ending = mixed(source, classes, count)
        yield lent(source, f"mixed in many: {count}, class {one} in block {at + 1}{ending}", site.content())


def without_house(source):
    """Tritium where L or W is zero: its first record is refused, with or without a pathway. Without tritium L and W may be zero."""
    houses = (("L",), ("W",), HOUSE_FACTORS)
    while True:
        for names, before, others in shuffled(source, itertools.product(houses, (0, 1, 2), (None, "SFo", "SFi", "C"))):
            site = house_site(source, [RADIONUCLIDE] * before + [TRITIUM, source.choice((RADIONUCLIDE, TRITIUM))])
            site.scenario.update(dict.fromkeys(names, ZERO))
            if others is not None:
                site.records[before].update({name: ZERO for name in CONTAMINANT_VALUES if name != others})
            known = "every value" if others is None else others
            name = f"without house: {' and '.join(names)} zero, known {known}" + refusal(HOUSE, before + 1)
            yield lent(source, name, site.content())
            if before == 0 and others is None:
                klass = source.choice((CHEMICAL, RADIONUCLIDE))
                site = house_site(source, [klass, RADIONUCLIDE], source.choice(list(MEDIA)))
                site.scenario.update(dict.fromkeys(names, ZERO))
                yield lent(source, f"without house: {' and '.join(names)} zero, class {klass}; accepted", site.content())


def tritium_in_soil(source):
    """Tritium in soil is refused, whatever stands before it, with a house or without, with values or without."""
    while True:
        for start, is_known, has_house in shuffled(source, itertools.product(
                ((), (CHEMICAL,), (RADIONUCLIDE,), (CHEMICAL, RADIONUCLIDE)), (True, False), (True, False))):
            site = house_site(source, [*start, TRITIUM, source.choice((CHEMICAL, RADIONUCLIDE, TRITIUM))], SOIL)
            if not is_known:
                without_values(site.records[len(start)])
            if not has_house:
                site.scenario.update(dict.fromkeys(("M", "F", "N", "S", "V", "L", "W", "K"), ZERO))
            what = f"{'every value' if is_known else 'no value'}, {'a' if has_house else 'no'} house"
            yield lent(source, f"tritium in soil: {what}" + refusal(HOUSE, len(start) + 1), site.content())


def missing_house(source):
    """Every combination of missing factors of tritium's inhalation and skin; where SFo is missing too, only inhalation is left."""
    for known in shuffled(source, itertools.product((True, False), repeat=len(MAY_BE_ZERO))):
        is_known = dict(zip(MAY_BE_ZERO, known))
        site = house_site(source, source.choice(([TRITIUM], [TRITIUM], [RADIONUCLIDE, TRITIUM])))
        site.scenario.update({name: ZERO for name in MAY_BE_ZERO if not is_known[name]})
        ending = "; accepted"
        if source.randrange(2):
            site.records[-1]["SFo"] = ZERO
            has_hours = is_known["ET"] or all(is_known[name] for name in ("F", "N", "S", "V"))
            ending = "; accepted" if is_known["M"] and has_hours else refusal(PATHWAY, len(site.records))
        kept = " ".join(name for name in MAY_BE_ZERO if is_known[name]) or "nothing"
        slope = "known" if site.records[-1]["SFo"] != ZERO else "zero"
        yield lent(source, f"missing house: known {kept}, SFo {slope}{ending}", site.content())
