"""What a test site is called, with the refusal that its maker planned; the output that is lent for it; and the order of such sites."""
import itertools
import re

from second.guideline import ACCEPTED


def planned(name):
    """The refusal and block that the name ends with, (0, 0) for "; accepted"; None when it ends with neither."""
    if name.endswith("; accepted"):
        return ACCEPTED, 0
    found = re.search(r"; refused (\d+) block (\d+)$", name)
    return found and (int(found[1]), int(found[2]))


def family_of(name):
    return name.partition(":")[0]


def refusal(number, block):
    return f"; refused {number} block {block}"


def room_for(source, length):
    """An output that is long enough: mostly just so."""
    return length + source.choice((0, 0, 0, 0, 1, 3, 511, 512, 700))


def any_room(source, length):
    """An output of any length, for a site that is refused by another number than 10."""
    return source.choice((0, 1, 511, 512, max(length - 1, 0), length, length, length, length + 1, length + 512))


def short_room(source, length):
    """An output that is too short."""
    return source.choice((0, 1, 511, 512, length // 2, length - 512, length - 511, length - 4, length - 1))


def lent(source, name, content):
    """The case with an output of any length when the site is sure to be refused, and else of a length that is enough."""
    is_refused = planned(name) not in (None, (ACCEPTED, 0))
    return name, content, (any_room if is_refused else room_for)(source, len(content))


def shuffled(source, things):
    things = list(things)
    source.shuffle(things)
    return things


def interleaved(things, key):
    """The things in an order in which each key comes once before any comes again."""
    groups = {}
    for thing in things:
        groups.setdefault(key(thing), []).append(thing)
    return [thing for row in itertools.zip_longest(*groups.values()) for thing in row if thing is not None]
