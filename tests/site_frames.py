"""Test sites and their answers in frames, for a program that makes the call on one site after the other.

    python3 tests/site_frames.py 5000 1 CASES EXPECTED        writes both files for 5000 test sites from seed 1

A case is the length of the site (4 bytes), the length of the output (4), and the site. Its answer is one number of 8
bytes, all bytes of the output after the call, the length of the listing's text (4), and the text. The number holds the
refusal in bits 0 to 7, the block in 8 to 15, the verdict of risk in 16 to 23 and of hazard in 24 to 31. Numbers are
little-endian. Every byte of the output is 165 before the call. The text is that for the answer to this very call: an
output that is too short gives "refused 10 block 0".
"""
import itertools
import multiprocessing
import pathlib
import struct
import sys

from second.listing import text_of
from second.sites import site
from site_maker import sites

FILL = 0xA5
PROCESSES = 2


def filled(room):
    """An output of this length before the call."""
    return bytes([FILL]) * room


def case_frame(given, room):
    return struct.pack("<2I", len(given), room) + given


def read_cases(content):
    """The site and the output length of each case in the bytes of a file."""
    at = 0
    while at < len(content):
        length, room = struct.unpack_from("<2I", content, at)
        at += 8
        given = content[at:at + length]
        assert len(given) == length, "the last case is cut short"
        yield given, room
        at += length


def number_of(answer):
    """Refusal, block and verdicts in one number."""
    return answer.refusal | answer.block << 8 | answer.verdicts[0] << 16 | answer.verdicts[1] << 24


def answer_frame(number, output, text):
    return struct.pack("<Q", number) + output + struct.pack("<I", len(text)) + text.encode()


def read_answers(content, rooms):
    """The number, the output and the text of each answer; the output lengths are those of the cases."""
    at = 0
    for room in rooms:
        number, = struct.unpack_from("<Q", content, at)
        at += 8
        output = content[at:at + room]
        at += room
        length, = struct.unpack_from("<I", content, at)
        at += 4
        yield number, output, content[at:at + length].decode()
        at += length
    assert at == len(content), "the answers do not end with the last case"


def expected(case):
    """The number, the output and the text that the second calculation gives for a case."""
    given, room = case
    answer = site(given, filled(room))
    return number_of(answer), answer.output, text_of(answer, len(given))


def write_files(count, seed, cases_path, expected_path):
    """The frames of the first test sites from the seed, and those of their answers."""
    cases = [(given, room) for _, given, room in itertools.islice(sites(seed), count)]
    cases_path.write_bytes(b"".join(case_frame(*case) for case in cases))
    with multiprocessing.Pool(PROCESSES) as pool, expected_path.open("wb") as file:
        for answer in pool.imap(expected, cases, chunksize=8):
            file.write(answer_frame(*answer))


def main():
    count, seed = int(sys.argv[1]), int(sys.argv[2])
    paths = pathlib.Path(sys.argv[3]), pathlib.Path(sys.argv[4])
    write_files(count, seed, *paths)
    cases, answers = (path.read_bytes() for path in paths)
    read = list(read_answers(answers, [room for _, room in read_cases(cases)]))
    print(f"{len(read)} sites, {len(cases)} bytes of cases, {len(answers)} bytes of answers")


if __name__ == "__main__":
    main()
