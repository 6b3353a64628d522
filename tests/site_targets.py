"""Test sites whose sums come close to a target: by the target or by the concentrations."""
from guideline_records import moved
from second.decimals import DOWN, UP, keeps_input_rule, rounded, value
from second.guideline import TARGET
from second.sums import sums
from second.terms import SIDES, exact_term_sum, has_pathway, inputs_of
from site_parts import written_shorter

# Where a target can be put beside the sums of a side.
BESIDE_SUMS = ("one below lower", "on lower", "one above lower", "exact down", "exact up", "one below upper", "on upper",
               "one above upper")


def exact_sum(site, side):
    """The exact sum of the list on a side."""
    parts = (value(r["C"]) * exact_term_sum(site.medium, r["class"], side, inputs_of(site.scenario, r)) for r in site.records)
    return sum(parts)


def targets_near(site, side):
    """Targets beside the reported sums and the exact sum of a side, by name."""
    answer = sums(site.scenario, site.medium, site.records)
    at = 2 * SIDES.index(side)
    lower, upper = answer.sums[at:at + 2]
    exact = exact_sum(site, side)
    return {
        "one below lower": moved(lower, -1), "on lower": lower, "one above lower": moved(lower, 1),
        "exact down": rounded(exact, DOWN), "exact up": rounded(exact, UP),
        "one below upper": moved(upper, -1), "on upper": upper, "one above upper": moved(upper, 1),
    }


def with_targets_near(source, site, names):
    """The site with each target that has a sum put beside it; None when such a target would break the input rule."""
    for side, name in names.items():
        if not any(has_pathway(site.medium, r["class"], side, inputs_of(site.scenario, r)) for r in site.records):
            continue
        target = targets_near(site, side)[name]
        if target.m == 0 or not keeps_input_rule(target):
            return None
        site.scenario[TARGET[side]] = written_shorter(source, target)
    return site


def with_concentrations_near(source, site, side):
    """The site with concentrations for which the exact sum of the side comes close to the target, if they can be written.

    The records that have a pathway there share the target, and the last one takes what is left, rounded to nine digits.
    """
    left = value(site.scenario[TARGET[side]])
    having = [r for r in site.records if has_pathway(site.medium, r["class"], side, inputs_of(site.scenario, r))]
    for record in having:
        exact = exact_term_sum(site.medium, record["class"], side, inputs_of(site.scenario, record))
        is_last = record is having[-1]
        share = left if is_last else left / source.randint(2, 5)
        c = rounded(share / exact, source.choice((DOWN, UP)))
        if is_last:
            c = moved(c, source.choice((-2, -1, 0, 0, 0, 1, 2)))
        if not keeps_input_rule(c):
            return None
        record["C"] = written_shorter(source, c)
        left -= value(c) * exact
        if left <= 0:
            break
    return site if having else None
