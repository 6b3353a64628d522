"""Families of test sites with a soil saturation: beside the inhalation guidelines of a chemical, far from them, and ignored."""
import itertools

from guideline_maker import same_value, unit_case
from guideline_records import Case, moved, uncapped
from second.decimals import ZERO, Decimal, keeps_input_rule, value
from second.guideline import FIELD, PATHWAY
from second.terms import CHEMICAL, CONTAMINANT_VALUES, SIDES, SOIL
from site_naming import lent, refusal, shuffled
from site_parts import CLASSES, KINDS, MEDIA, Site, full_site, written_shorter

BESIDE = {"one below": -1, "on": 0, "one above": 1}
# What makes the inhalation of a chemical in soil absent, and the sides on which it does.
MISSING = {("SFi",): "risk", ("RfDi",): "hazard", ("SFi", "RfDi"): "both", ("IRA",): "both", ("VF", "PEF"): "both"}


def columns(site, record):
    """The inhalation guidelines of risk and hazard of a record of the site, by no saturation."""
    return uncapped(Case(site.medium, site.scenario, record))


def near_saturation(source):
    """A saturation that is the inhalation guideline of a side, or one unit of the last digit beside it; other records with any."""
    listed = shuffled(source, itertools.product(range(2), BESIDE))
    endless = ((source.randrange(2), source.choice(list(BESIDE))) for _ in itertools.count())
    for side, place in itertools.chain(listed, endless):
        site = full_site(source, source.choice((1, 1, 2, 3)), SOIL, CHEMICAL)
        record = source.choice(site.records)
        saturation = moved(columns(site, record)[side], BESIDE[place])
        if keeps_input_rule(saturation):
            record["Csat"] = written_shorter(source, saturation)
            yield lent(source, f"near saturation: {SIDES[side]}, {place}; accepted", site.content())


def exact_saturations(source):
    """Terms that are 1, so that the targets are the guidelines: saturations below, on, between and above, in several forms."""
    targets = [(Decimal(2, 0), Decimal(3, 0)), (Decimal(3, 0), Decimal(2, 0)), (Decimal(1, 0), Decimal(10, -1)),
               (Decimal(999_999_999, -9), Decimal(100_000_001, -8))]
    saturations = [Decimal(1, -20), Decimal(5, -1), Decimal(999_999_999, -9), Decimal(1, 0), Decimal(100_000_001, -8), Decimal(2, 0),
                   Decimal(25, -1), Decimal(3, 0), Decimal(999_999_999, 20)]
    for (risk, hazard), d in shuffled(source, itertools.product(targets, saturations)):
        saturation = same_value(d, source.choice([more for more in (0, 1, 5, 8) if keeps_input_rule(same_value(d, more))]))
        case = unit_case(risk, hazard, saturation)
        name = f"exact saturation: {saturation.m}e{saturation.e}, risk {risk.m}e{risk.e}, hazard {hazard.m}e{hazard.e}"
        yield lent(source, f"{name}; accepted", Site(SOIL, case.scenario, [case.record]).content())


def saturation_for(source, guidelines, capped):
    """A saturation far above both guidelines, far below both, or for one side a little above the lower guideline."""
    low, high = sorted(guidelines, key=value)
    if capped == "neither":
        return Decimal(high.m, high.e + source.choice((1, 3, 8)))
    if capped == "both":
        return Decimal(low.m, low.e - source.choice((1, 3, 8)))
    return moved(low, source.choice((1, 1000)))


def capped_sides(source):
    """A saturation that caps the risk column alone, that of hazard alone, both or neither, among records with other ones."""
    for capped in itertools.cycle(("both", "risk", "neither", "hazard")):
        site = full_site(source, source.choice((1, 2, 3)), SOIL, CHEMICAL)
        record = source.choice(site.records)
        if capped in SIDES:
            # What lies between the two guidelines caps the greater one: a great target makes it that of the side that is asked for.
            site.scenario["THI" if capped == "hazard" else "TR"] = Decimal(source.randint(1, 9), 9)
        risk, hazard = columns(site, record)
        record["Csat"] = saturation_for(source, (risk, hazard), capped)
        greater = "risk" if value(risk) > value(hazard) else "hazard"
        if keeps_input_rule(record["Csat"]) and capped in ("both", "neither", greater):
            yield lent(source, f"capped sides: {capped}; accepted", site.content())


def absent_inhalation(source):
    """A saturation where inhalation is absent on a side or both: its column stays zero. With no other value there is no pathway."""
    for (names, side), alone in itertools.cycle(shuffled(source, itertools.product(MISSING.items(), (False, True)))):
        site = full_site(source, source.choice((1, 2)), SOIL, CHEMICAL)
        record = site.records[-1]
        for factors in (site.scenario, record):
            factors.update({name: ZERO for name in names if name in factors})
        record["Csat"] = Decimal(source.randint(1, 999), source.choice((-20, -6, 0, 20)))
        if alone:
            # The earlier record has a pathway by SFo still.
            record.update({name: ZERO for name in CONTAMINANT_VALUES if name != "Csat"})
        ending = refusal(PATHWAY, len(site.records)) if alone else "; accepted"
        what = "known the saturation alone" if alone else f"{' and '.join(names)} zero, absent on {side}"
        yield lent(source, f"absent inhalation: {what}{ending}", site.content())


def ignored_saturation(source):
    """A saturation of a chemical in water, a radionuclide or tritium moves nothing; one that breaks the rule of a decimal is
    refused."""
    kinds = [kind for kind in KINDS if kind != (SOIL, CHEMICAL)]
    for (medium, klass), is_broken in itertools.cycle(shuffled(source, itertools.product(kinds, (False, True)))):
        site = full_site(source, source.choice((1, 2)), medium, klass)
        place, name = len(site.records), f"ignored saturation: {MEDIA[medium]} {CLASSES[klass]}"
        # Mostly so low that it would cap any guideline.
        site.records[-1]["Csat"] = Decimal(*source.choice(((1, -20), (1, -20), (999_999_999, -20), (999_999_999, 20))))
        if not is_broken:
            yield lent(source, f"{name}; accepted", site.content())
            continue
        fault = source.choice([fault for fault in site.faults(place) if fault.name.startswith("Csat ")])
        yield lent(source, f"{name}, {fault.name}" + refusal(FIELD, place), site.with_faults({place: [fault]}))
