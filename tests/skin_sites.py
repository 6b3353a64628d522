"""Families of test sites with soil on skin, pathway 3 of a chemical in soil: what is missing of it, one age alone, the rounding of its
G, sums close to the target with its term, a saturation beside it, and its decimals where they are ignored."""
import itertools

from guideline_maker import hard_ages
from guideline_records import AGES, ON_SKIN, USUAL
from second.decimals import ZERO, Decimal, keeps_input_rule, value
from second.guideline import FIELD, PATHWAY, guideline
from second.terms import CHEMICAL, CONTAMINANT_VALUES, RADIONUCLIDE, SCENARIO_FACTORS, SIDES, SOIL
from site_naming import interleaved, lent, refusal, shuffled
from site_parts import CLASSES, KINDS, MEDIA, Site, full_record, full_site, some_ids, with_decimals, with_skin
from site_targets import BESIDE_SUMS, with_concentrations_near, with_targets_near

# What the pathway needs: SFo for risk or RfDo for hazard, ABS and AF in any case, and all four factors of one age.
OF_SIDES, IN_ANY_CASE = ("SFo", "RfDo"), ("ABS", "AF")
FACTORS = (*OF_SIDES, *ON_SKIN)


def skin_site(source, count, klass=CHEMICAL):
    """A site in soil whose records have this class; two ages, and every value known, but for saturations."""
    return with_skin(source, full_site(source, count, SOIL, klass))


def without_others(site):
    """The site without ingestion and inhalation, so that soil on skin is the only pathway of a chemical; radionuclides keep theirs."""
    site.scenario.update({"IR": ZERO, "IRA": ZERO})
    return site


def is_there(known):
    """Whether soil on skin is there by what is known of it, on either side."""
    has_age = any(set(names) <= known for names in AGES.values())
    return has_age and set(IN_ANY_CASE) <= known and bool(known & set(OF_SIDES))


def missing_on_skin(source):
    """Every combination of what soil on skin needs, where it is the only pathway, at times after a radionuclide.

    Those that make the pathway and those that do not take turns while there are both; combinations of every size come early.
    """
    listed = [frozenset(known) for size in range(len(FACTORS) + 1) for known in itertools.combinations(FACTORS, size)]
    for known in interleaved(interleaved(shuffled(source, listed), key=len), key=is_there):
        first = source.choice(((), (), (RADIONUCLIDE,)))
        site = without_others(skin_site(source, len(first) + 1))
        for record, klass in zip(site.records, first):
            record.update(full_record(source, klass, record["id"]))
        missing = {name: ZERO for name in FACTORS if name not in known}
        site.scenario.update({name: d for name, d in missing.items() if name in SCENARIO_FACTORS})
        site.records[-1].update({name: d for name, d in missing.items() if name in CONTAMINANT_VALUES})
        ending = "; accepted" if is_there(known) else refusal(PATHWAY, len(site.records))
        yield lent(source, f"missing on skin: known {' '.join(sorted(known)) or 'nothing'}{ending}", site.content())


def one_age(source):
    """A factor of one age zero, all of them, or one of each age: G is that of the other age, or zero and the pathway absent.

    With the other pathways, and without.
    """
    gone = [(name,) for name in (*AGES["child"], *AGES["adult"])] + [*AGES.values(), *zip(*AGES.values()), ("childBW", "adultSA")]
    for names, alone in itertools.cycle(shuffled(source, itertools.product(gone, (True, False)))):
        site = skin_site(source, source.choice((1, 1, 2)))
        site.scenario.update(dict.fromkeys(names, ZERO))
        is_absent = all(set(of_age) & set(names) for of_age in AGES.values())
        ending = "; accepted"
        if alone:
            without_others(site)
            ending = refusal(PATHWAY, 1) if is_absent else ending
        what = f"{' and '.join(names)} zero, {'alone' if alone else 'beside others'}"
        yield lent(source, f"one age: {what}{ending}", site.content())


def hard_ages_in_sites(source):
    """A G whose roundings show in the guidelines, and in the sums of a concentration of 1, up and down."""
    for case in hard_ages(source):
        site = Site(SOIL, case.scenario, [{**case.record, "id": number} for number in some_ids(source, source.choice((1, 1, 2)))])
        yield lent(source, f"hard ages: {len(site.records)}; accepted", site.content())


def near_on_skin(source):
    """Targets just below, on and just above the sums with the third term, and concentrations for which these come close to it."""
    for number in itertools.count():
        site = skin_site(source, source.choice((1, 1, 2, 3)), source.choice((CHEMICAL, CHEMICAL, None)))
        if source.randrange(2):
            without_others(site)
        if number % 2:
            side = source.choice(SIDES)
            site, what = with_concentrations_near(source, site, side), f"concentration, {side}"
        else:
            places = {side: source.choice(BESIDE_SUMS) for side in SIDES}
            site, what = with_targets_near(source, site, places), ", ".join(places.values())
        if site is not None:
            yield lent(source, f"near on skin: {what}; accepted", site.content())


def capped_on_skin(source):
    """A saturation below the guidelines of inhalation, which it caps, and of soil on skin, which it does not; inhalation may be absent."""
    for has_inhalation in itertools.cycle((True, False)):
        site = skin_site(source, source.choice((1, 1, 2)))
        if not has_inhalation:
            site.scenario["IRA"] = ZERO
        record = site.records[-1]
        guidelines = guideline(site.scenario, SOIL, {**record, "Csat": ZERO}).guidelines
        least = min((d for place, d in enumerate(guidelines) if place % 4 in (1, 2) and d != ZERO), key=value)
        record["Csat"] = Decimal(least.m, least.e - source.choice((1, 3, 6)))
        if keeps_input_rule(record["Csat"]):
            what = "inhalation too" if has_inhalation else "no inhalation"
            yield lent(source, f"capped on skin: {what}; accepted", site.content())


def ignored_on_skin(source):
    """The decimals of soil on skin of a radionuclide, of tritium and in water move nothing; one that breaks the rule of a decimal is
    refused, in the header or in its record."""
    kinds = [kind for kind in KINDS if kind != (SOIL, CHEMICAL)]
    for (medium, klass), is_broken in itertools.cycle(shuffled(source, itertools.product(kinds, (False, True)))):
        # Mostly so great that the pathway would move every total.
        d = Decimal(*source.choice(((999_999_999, 20), (999_999_999, 20), (1, -20))))
        site = with_decimals(full_site(source, source.choice((1, 2)), medium, klass), dict.fromkeys(ON_SKIN, d))
        name = f"ignored on skin: {MEDIA[medium]} {CLASSES[klass]}"
        if not is_broken:
            yield lent(source, f"{name}; accepted", site.content())
            continue
        wrong = source.choice(ON_SKIN)
        place = 0 if wrong in SCENARIO_FACTORS else len(site.records)
        fault = source.choice([fault for fault in site.faults(place) if fault.name.startswith(f"{wrong} ")])
        yield lent(source, f"{name}, {fault.name}" + refusal(FIELD, place), site.with_faults({place: [fault]}))


def extreme_on_skin(source):
    """The least and greatest inputs, and one with trailing zeros: in one decimal of soil on skin, in one age, in all, everywhere."""
    extremes = [Decimal(1, -20), Decimal(1, 20), Decimal(999_999_999, -20), Decimal(999_999_999, 20), Decimal(1000, -3)]
    groups = [(name,) for name in ON_SKIN] + [*AGES.values(), tuple(ON_SKIN), (*USUAL, *ON_SKIN), (*ON_SKIN, "SFo", "RfDo")]
    for names, d in shuffled(source, itertools.product(groups, extremes)):
        site = with_decimals(skin_site(source, source.choice((1, 2))), dict.fromkeys(names, d))
        what = names[0] if len(names) == 1 else f"{len(names)} decimals"
        yield lent(source, f"extreme on skin: {what} {d.m}e{d.e}; accepted", site.content())
    while True:
        site = skin_site(source, source.choice((1, 2)))
        names = source.sample((*USUAL, *ON_SKIN), source.randint(2, 30)) + source.sample(ON_SKIN, 4)
        with_decimals(site, {name: source.choice(extremes) for name in names})
        yield lent(source, f"extreme on skin: any, {len(names)}; accepted", site.content())
