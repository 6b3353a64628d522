"""Faults of one block of a site, each with the number of the refusal that the specification gives it."""
import struct
from typing import Callable, NamedTuple

from guideline_records import IN_AIR, NOT_IN_AIR, REQUIRED
from second.blocks import CONTAMINANT, CONTAMINANT_PLACES, HEADER_PLACES, LAST_WORD, WORD, between_fields, with_last_word, word
from second.guideline import CHECK, COUNT, FACTOR, FIELD, HOUSE, KIND, ORDER, PATHWAY
from second.terms import INTAKE

# Fields that break the rule of a decimal: m, e in two's complement, the two bytes that have to be zero.
BROKEN_FIELDS = {
    "m 10^9": (10**9, 0, 0),
    "m 2^32-1": (WORD - 1, 0, 0),
    "m 2^31 e 20": (2**31, 20, 0),
    "e 21": (7, 21, 0),
    "e -21": (7, -21, 0),
    "e 32767": (1, 32767, 0),
    "e -32768": (1, -32768, 0),
    "e 256, whose low byte is 0": (7, 256, 0),
    "e 236, whose low byte is that of -20": (7, 236, 0),
    "zero with e 1": (0, 1, 0),
    "zero with e -1": (0, -1, 0),
    "zero with e -20": (0, -20, 0),
    "e -3 with its sign in the zero bytes": (7, -3, 0xFFFF),
    "e 3 with 255 in the zero bytes": (7, 3, 0xFFFF),
    "zero with 1 in the zero bytes": (0, 0, 1),
    "first zero byte 1": (7, 0, 0x0001),
    "second zero byte 128": (7, 0, 0x8000),
}

# Values that the pathways of a medium and class do not use, or not without others: alone they make no pathway.
UNNEEDED = {
    (1, 1): ("SFx", "VF", "PC", "C", "Csat", "ABS"),
    (1, 2): ("RfDo", "RfDi", "VF", "PC", "C", "Csat", "ABS"),
    (2, 1): ("SFx", "VF", "PC", "C", "Csat", "ABS"),
    (2, 2): ("SFi", "SFx", "RfDo", "RfDi", "VF", "PC", "C", "Csat", "ABS"),
    (2, 3): ("SFx", "RfDo", "RfDi", "VF", "PC", "C", "Csat", "ABS"),
}

# Words that are no medium and no class, whatever their low bytes are.
NO_MEDIUM = (0, 3, 257, 258, 1 + 2**16, 2 + 2**24, 1 + 2**31, WORD - 1)
NO_CLASS = (0, 4, 257, 258, 259, 1 + 2**16, 3 + 2**16, 2 + 2**24, 1 + 2**31, 3 + 2**31, WORD - 1)
# Bytes beside the ends of the older fields of a block, and further on; each is unused in a block of which no field holds it.
FIELD_ENDS = (88, 89, 92, 95, 100, 111, 120, 176, 177, 180, 183, 191, 199, 200, 271, 272, 300, 504, LAST_WORD - 1)


class Fault(NamedTuple):
    number: int  # of the refusal
    name: str
    change: Callable  # from the bytes of a sound block to the changed bytes
    after_last_word: bool = False  # for a wrong last word: made when all else is done

    def sort(self):
        """What is wrong, whichever the decimal: the name without the decimal's."""
        rest = self.name.partition(" ")[2]
        return rest if rest in BROKEN_FIELDS else self.name


def put(at, content):
    return lambda block: block[:at] + content + block[at + len(content):]


def put_word(at, number):
    return put(at, struct.pack("<I", number))


def add_to_words(places, number):
    def change(block):
        for at in places:
            block = put_word(at, (word(block, at) + number) % WORD)(block)
        return block
    return change


def zero_fields(places):
    def change(block):
        for at in places:
            block = put(at, bytes(8))(block)
        return block
    return change


def frame_faults(place, kind):
    """Refusals 2 and 3 of a block of this kind, a header's being 1; in a header of kind 6 they are the same."""
    for more in (1, 256, 2**16, 2**31, WORD - 1):
        yield Fault(CHECK, f"last word plus {more}", add_to_words([LAST_WORD], more), True)
    # The words added bit by bit without a carry would still give zero.
    yield Fault(CHECK, "one bit set in each of two unused words", add_to_words([280, 300], 1), True)
    for wrong in sorted({0, abs(place - 1), place + 1, place + 256, place + 2**16, place + 2**31, WORD - 1} - {place}):
        yield Fault(CHECK, f"place {wrong}", put_word(4, wrong))
    for wrong in (0, INTAKE + CONTAMINANT - kind, 3, 4, kind + 256, kind + 2**16, kind + 2**31, WORD - 1):
        yield Fault(KIND, f"kind {wrong}", put_word(0, wrong))


def field_faults(all_places, word_at_8, wrong_words):
    """Refusal 4: decimals but for A, U and Q; the medium or class; bytes that are unused, or that must be zero where these three are."""
    places = {name: at for name, at in all_places.items() if name in NOT_IN_AIR}
    yield from decimal_faults(places)
    for wrong in wrong_words:
        yield Fault(FIELD, f"{word_at_8} {wrong}", put_word(8, wrong))
    for at in between_fields(places.values()):
        if at in FIELD_ENDS:
            yield Fault(FIELD, f"byte {at} set", put(at, bytes([1 if at % 2 else 255])))


def decimal_faults(places):
    """Refusal 4 in the decimals that stand at these places."""
    for name, at in places.items():
        for fault, field in BROKEN_FIELDS.items():
            yield Fault(FIELD, f"{name} {fault}", put(at, struct.pack("<IhH", *field)))


def count_faults(count):
    """Refusal 5."""
    for wrong in sorted({0, count - 1, count + 1, 120, 121, count + 256, count + 2**16, count + 2**31, WORD - 1} - {count}):
        yield Fault(COUNT, f"count {wrong}", put_word(12, wrong))


def factor_faults():
    """Refusal 6."""
    for name in REQUIRED:
        yield Fault(FACTOR, f"{name} zero", zero_fields([HEADER_PLACES[name]]))


def order_faults(previous_id):
    """Refusal 7: ids not above the one before, and not 0."""
    for wrong in (previous_id, previous_id - 1, previous_id // 2, previous_id % 2**31, previous_id % 256, 1):
        yield Fault(ORDER, f"id {wrong or 1} after {previous_id}", put_word(12, wrong or 1))


def pathway_faults(medium, klass):
    """Refusal 8."""
    for kept in ((), ("C",), ("Csat",), ("ABS",), UNNEEDED[medium, klass]):
        places = [at for name, at in CONTAMINANT_PLACES.items() if name not in kept]
        yield Fault(PATHWAY, f"known: {' '.join(kept) or 'nothing'}", zero_fields(places))


def house_faults(klass):
    """Refusal 12, by the class that no record can have there."""
    yield Fault(HOUSE, f"class {klass} there", put_word(8, klass))


def air_faults(is_header):
    """Refusals 3 and 4 of a block of either kind of site: other kinds, A or U and Q, and the unused bytes beside them."""
    for wrong in (5, 7, 261, 262, 6 + 2**16, 5 * 2**8, 6 * 2**24, 6 + 2**31, WORD - 6) if is_header else (1, 5, 6, 258, 6 + 2**16, WORD - 2):
        yield Fault(KIND, f"kind {wrong} there", put_word(0, wrong))
    places = HEADER_PLACES if is_header else CONTAMINANT_PLACES
    yield from decimal_faults({name: at for name, at in places.items() if name in IN_AIR})
    for at in range(176, 192) if is_header else range(88, 96):
        yield Fault(FIELD, f"unused byte {at} set", put(at, bytes([1 if at % 2 else 255])))


def header_faults(count):
    yield from frame_faults(0, INTAKE)
    yield from field_faults(HEADER_PLACES, "medium", NO_MEDIUM)
    yield from count_faults(count)
    yield from factor_faults()


def contaminant_faults(place, medium, klass, previous_id, impossible_class):
    """The first contaminant has none before it: previous_id None. Where each class is possible there impossible_class is None.

    A fault of that class comes last, so that every other one has the same number in each site.
    """
    yield from frame_faults(place, CONTAMINANT)
    yield from field_faults(CONTAMINANT_PLACES, "class", NO_CLASS)
    yield Fault(FIELD, "id 0", put_word(12, 0))
    if previous_id is not None:
        yield from order_faults(previous_id)
    yield from pathway_faults(medium, klass)
    if impossible_class is not None:
        yield from house_faults(impossible_class)


def damaged(block, faults):
    """The block with these faults, its last word right but for a fault of the last word."""
    for fault in faults:
        block = block if fault.after_last_word else fault.change(block)
    block = with_last_word(block)
    for fault in faults:
        block = fault.change(block) if fault.after_last_word else block
    return block


def are_apart(block, one, other):
    """Whether the order of the two does not matter: then neither undoes the other, and both hold."""
    return one.change(other.change(block)) == other.change(one.change(block))
