"""The text that the program gvlist prints for a site (docs/SPECIFICATION.md, "Listing")."""
from .blocks import BLOCK, RESULT_PLACES, field_of, word
from .decimals import ZERO
from .guideline import ACCEPTED
from .sums import ABOVE, NONE, UNDECIDED, WITHIN
from .sites import site
from .terms import CHEMICAL, SIDES

VERDICT_WORDS = {WITHIN: "within", ABOVE: "above", UNDECIDED: "undecided", NONE: "none"}


def printed(d):
    """The first digit of m, a point, the other eight, E, a sign and the size of e + 8."""
    digits, e = str(d.m), d.e + 8
    return f"{digits[0]}.{digits[1:]}E{'-' if e < 0 else '+'}{abs(e)}"


def contaminant_lines(result):
    """The lines of one result block: id, side, three pathways, total. Only a chemical has a hazard line."""
    sides = SIDES if word(result, 8) == CHEMICAL else SIDES[:1]
    for number, side in enumerate(sides):
        guidelines = [field_of(result, at) for at in RESULT_PLACES[4 * number:4 * number + 4]]
        yield " ".join([str(word(result, 12)), side, *("-" if d == ZERO else printed(d) for d in guidelines)])


def sum_line(side, lower, upper, verdict):
    """Verdict 4 prints a dash for each sum; a zero sum prints 0."""
    if verdict == NONE:
        figures = ["-", "-"]
    else:
        figures = ["0" if d == ZERO else printed(d) for d in (lower, upper)]
    return " ".join(["sum", side, *figures, VERDICT_WORDS[verdict]])


def text_of(answer, length):
    """The text for the answer to a site of this length: contaminants in list order, then the sums; or the refusal alone."""
    if answer.refusal != ACCEPTED:
        return f"refused {answer.refusal} block {answer.block}\n"
    lines = []
    for at in range(BLOCK, length, BLOCK):
        lines += contaminant_lines(answer.output[at:at + BLOCK])
    for number, side in enumerate(SIDES):
        lines.append(sum_line(side, *answer.sums[2 * number:2 * number + 2], answer.verdicts[number]))
    return "".join(f"{line}\n" for line in lines)


def listing(given):
    """What gvlist prints for this site: the output that it lends has room for every block."""
    return text_of(site(given, bytes(len(given))), len(given))
