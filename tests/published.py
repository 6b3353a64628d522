"""Compares the second calculation with the guideline values and the intake factors that the source documents print.

    python3 tests/published.py

A computed guideline agrees when it lies in the half-unit interval of the last printed digit. An intake factor is a term without its
slope factor, reference dose and absorbed fraction: where these and the target are 1, the guideline is one over it.

002 is older than inhalation by concentration, but its numbers fit it: its RfDi is RfC x 20 / 70, 20 m3 of air a day over 70 kg, and its
scenarios all have 20 m3 and 70 kg in the inhalation of chemicals. Entries of kind 6 take its RfC as Q and its hours in that air as A.
"""
import json
import pathlib
import sys
from fractions import Fraction

from guideline_records import Case, answer_of
from second.decimals import Decimal, exponent_of, power_of_ten, value
from second.terms import INTAKE

MEDIA = {"soil": 1, "water": 2}
CLASSES = {"chemical": 1, "radionuclide": 2, "tritium": 3}
PLACE_OF_PATHWAY = {1: 0, 2: 1, 3: 2, "total": 3}
PLACE_OF_SIDE = {"risk": 0, "hazard": 4}


def decimal_of(text):
    """'1.30E-01' is (130, -3)."""
    digits, _, exponent = text.upper().partition("E")
    whole, _, part = digits.partition(".")
    return Decimal(int(whole + part), int(exponent or 0) - len(part))


def case_of(entry, number):
    record = {name: decimal_of(text) for name, text in entry["contaminant"].items() if name != "name"}
    record.update({"class": CLASSES[entry["class"]], "id": number})
    scenario = {"kind": entry.get("kind", INTAKE), **{name: decimal_of(text) for name, text in entry["scenario"].items()}}
    return Case(MEDIA[entry["medium"]], scenario, record)


def read():
    """Every published number: (its entry, its case)."""
    path = pathlib.Path(__file__).parent / "published.json"
    entries = json.loads(path.read_text(encoding="utf-8"))
    return [(entry, case_of(entry, number)) for number, entry in enumerate(entries, 1)]


def agrees(entry, computed):
    if computed.m == 0:
        return False
    worth = 1 / value(computed) if entry.get("prints") == "intake factor" else value(computed)
    printed = Fraction(entry["published_01_units"])
    # exponent_of leaves nine digits before the point; the last printed one is the digits-th of them.
    unit = power_of_ten(exponent_of(printed) + 9 - entry["digits"])
    return abs(worth - printed) <= unit / 2


def main():
    agree = disagree = 0
    for entry, case in read():
        answer = answer_of(case)
        computed = answer.guidelines[PLACE_OF_SIDE[entry["side"]] + PLACE_OF_PATHWAY[entry["pathway"]]]
        good = answer.refusal == 0 and agrees(entry, computed)
        agree, disagree = agree + good, disagree + (not good)
        word = "agrees" if good else "DISAGREES"
        what = "one over" if entry.get("prints") == "intake factor" else "computed"
        print(f"{entry['id']}: printed {entry['published_01_units']}, {what} {computed.m}e{computed.e}, {word}")
    print(f"{agree} agree, {disagree} disagree")
    return 1 if disagree else 0


if __name__ == "__main__":
    sys.exit(main())
