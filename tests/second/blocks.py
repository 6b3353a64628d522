"""Blocks of 512 bytes: read, made and checked, and the writers of kinds 1 and 2 (docs/FORMAT.md)."""
import struct

from .decimals import Decimal
from .guideline import ACCEPTED, CHECK, COUNT, FACTOR, FIELD, KIND, ROOM, keeps_record_rule, scenario_refusal
from .terms import CONCENTRATION, CONTAMINANT_VALUES, INTAKE, SCENARIO_FACTORS

BLOCK = 512
LAST_WORD = 508
FIELDS = 16  # where the decimal fields begin
# A header has the kind of its scenario.
HEADERS = (INTAKE, CONCENTRATION)
CONTAMINANT, RESULT, SUMMARY = 2, 3, 4
WORD = 2**32

# The byte at which each decimal of a header and of a contaminant stands, by its name; those of a result and of a summary, in order.
HEADER_PLACES = dict(zip(SCENARIO_FACTORS, (*range(16, 176, 8), *range(192, 272, 8)), strict=True))
CONTAMINANT_PLACES = dict(zip(CONTAMINANT_VALUES, (*range(16, 88, 8), 96, 104, 112), strict=True))
RESULT_PLACES = range(16, 80, 8)
SUMMARY_PLACES = range(16, 48, 8)


def between_fields(places):
    """The bytes before the last word that stand in no field, where the fields stand at these places."""
    in_fields = {at + byte for at in places for byte in range(8)}
    return [at for at in range(FIELDS, LAST_WORD) if at not in in_fields]


# The bytes of a block without a meaning: the two last of each field, and those that stand in none.
HEADER_UNUSED, CONTAMINANT_UNUSED = ([at + byte for at in places.values() for byte in (6, 7)] + between_fields(places.values())
                                     for places in (HEADER_PLACES, CONTAMINANT_PLACES))


def word(block, at):
    """The four bytes at this place as a number, little-endian."""
    return struct.unpack_from("<I", block, at)[0]


def words_total(block):
    """The 128 words of a block added modulo 2^32; zero in a sound block."""
    return sum(struct.unpack("<128I", block)) % WORD


def with_last_word(block):
    """The block with the last word that makes its words add to zero."""
    others = sum(struct.unpack_from("<127I", block))
    return block[:LAST_WORD] + struct.pack("<I", -others % WORD)


def field_bytes(d):
    """A decimal field: m in four bytes, e in two (two's complement), two zero bytes."""
    return struct.pack("<IhH", d.m, d.e, 0)


def field_of(block, at):
    """The decimal in the field at this byte."""
    m, e, _ = struct.unpack_from("<IhH", block, at)
    return Decimal(m, e)


def are_zero(block, unused):
    """Whether the block has zero in each of these bytes."""
    return not any(block[at] for at in unused)


def made(words, fields):
    """A block with these words and decimals, each with the byte at which it stands; others are zero, and its words add to zero."""
    block = bytearray(BLOCK)
    for at, number in words:
        struct.pack_into("<I", block, at, number)
    for at, d in fields:
        block[at:at + 8] = field_bytes(d)
    return with_last_word(bytes(block))


def header_block(medium, count, scenario):
    return made([(0, scenario["kind"]), (8, medium), (12, count)], [(at, scenario[name]) for name, at in HEADER_PLACES.items()])


def contaminant_block(place, record):
    words = [(0, CONTAMINANT), (4, place), (8, record["class"]), (12, record["id"])]
    return made(words, [(at, record[name]) for name, at in CONTAMINANT_PLACES.items()])


def result_block(place, record, guidelines):
    """Same place, class and id as the contaminant; the eight guidelines."""
    words = [(0, RESULT), (4, place), (8, record["class"]), (12, record["id"])]
    return made(words, zip(RESULT_PLACES, guidelines, strict=True))


def summary_block(sums, verdicts):
    """The four sums, then the verdicts at 48 and 52. The place is 0, and the words at 8 and 12 have no meaning."""
    return made([(0, SUMMARY), (48, verdicts[0]), (52, verdicts[1])], zip(SUMMARY_PLACES, sums, strict=True))


def header_of(block):
    """Medium, count and scenario, as they stand in the bytes; the scenario of a block that is no header counts by intake."""
    kind = CONCENTRATION if word(block, 0) == CONCENTRATION else INTAKE
    return word(block, 8), word(block, 12), {"kind": kind, **{name: field_of(block, at) for name, at in HEADER_PLACES.items()}}


def record_of(block):
    """The contaminant record, as it stands in the bytes."""
    record = {name: field_of(block, at) for name, at in CONTAMINANT_PLACES.items()}
    return {"class": word(block, 8), "id": word(block, 12), **record}


def first(conditions):
    """The number of the first condition that holds, or 0. Later ones are not worked out."""
    return next((number for number, holds in conditions if holds), ACCEPTED)


def frame_conditions(block, place, kinds):
    """Refusals 2 and 3: the check and the kind of a block at this place, which may have these kinds."""
    yield CHECK, words_total(block) != 0 or word(block, 4) != place
    yield KIND, word(block, 0) not in kinds


def header_conditions(block, blocks):
    """Refusals 2 to 6 of the header, in a site of this many blocks."""
    medium, count, scenario = header_of(block)
    number = scenario_refusal(scenario, medium)
    yield from frame_conditions(block, 0, HEADERS)
    yield FIELD, not are_zero(block, HEADER_UNUSED) or number == FIELD
    yield COUNT, count != blocks - 1
    yield FACTOR, number == FACTOR


def contaminant_conditions(block, place):
    """Refusals 2, 3 and 4 of a contaminant block; the later ones look at more than this block."""
    yield from frame_conditions(block, place, (CONTAMINANT,))
    yield FIELD, not are_zero(block, CONTAMINANT_UNUSED) or not keeps_record_rule(record_of(block))


def header_writer_conditions(out, medium, count, scenario):
    """A writer tries 10, then 4, then (header) 6."""
    yield ROOM, len(out) < BLOCK
    number = scenario_refusal(scenario, medium)
    yield FIELD, number == FIELD or not 1 <= count <= 120
    yield FACTOR, number == FACTOR


def contaminant_writer_conditions(out, place, record):
    yield ROOM, len(out) < BLOCK
    yield FIELD, not keeps_record_rule(record) or not 1 <= place <= 120


def write_header(out, medium, count, scenario):
    """The refusal and the lent bytes afterwards: the first 512 are written, later ones left."""
    number = first(header_writer_conditions(out, medium, count, scenario))
    return number, out if number else header_block(medium, count, scenario) + out[BLOCK:]


def write_contaminant(out, place, record):
    """The refusal and the lent bytes afterwards: the first 512 are written, later ones left."""
    number = first(contaminant_writer_conditions(out, place, record))
    return number, out if number else contaminant_block(place, record) + out[BLOCK:]
