"""Names and symbols that are found slowly by a hash with a fixed seed: all of them stand in one group of its table. They are
chosen for the hash of the kit's maps, whose seed and steps stand here. Those of a slot are chosen for the slots of names in
`ic_flat_round`."""

import functools
import itertools
import string

import model

SEED, FACTOR, LOW = 0x243F6A8885A308D3, 0x9E3779B97F4A7C15, 2**64 - 1

# Nine entries fill a group.
LOAD = 9


def folded(left, right):
    product = left * right
    return (product & LOW) ^ product >> 64


def is_first(state, mask):
    """Whether a key with this hash stands in the first group of a table of so many."""
    return not (state ^ state >> 32) & mask


def mask_for(count):
    groups = 1
    while LOAD * groups < count:
        groups *= 2
    return groups - 1


@functools.cache
def numbers(count, begin):
    """The first keys of one group from a number on, in a table of so many."""
    mask, factor = mask_for(count), FACTOR ^ 16
    chosen = (key for key in itertools.count(begin) if is_first(folded(SEED ^ key, factor), mask))
    return tuple(itertools.islice(chosen, count))


def names(count, begin=2**24):
    return [model.name_text(number) for number in numbers(count, begin)]


def names_of_a_slot(count, bits=14):
    """The first names of the first of 2^bits slots. From one of them to the next leads one of two steps, or both."""
    most = 2 ** (64 - bits)
    ahead = next(step for step in itertools.count(1) if step * FACTOR & LOW < most)
    back = next(step for step in itertools.count(1) if -step * FACTOR & LOW < most)
    number, chosen = 0, []
    while len(chosen) < count:
        chosen.append(model.name_text(number))
        number += next(step for step in sorted((ahead, back, ahead + back)) if (number + step) * FACTOR & LOW < most)
    return chosen


def words(count, prefix):
    """Words that begin so and go on with three letters or digits."""
    mask, letters = mask_for(count), [ord(it) * 0x10101 for it in string.ascii_letters + string.digits]
    factor = FACTOR ^ 2
    before = folded(SEED ^ len(prefix) + 3, FACTOR ^ 16)
    for byte in prefix.encode():
        before = folded(before ^ byte * 0x10101, factor)
    chosen = []
    for first in letters:
        one = folded(before ^ first, factor)
        for second in letters:
            two = folded(one ^ second, factor)
            for third in letters:
                if is_first(folded(two ^ third, factor), mask):
                    chosen.append(prefix + "".join(chr(it & 0xFF) for it in (first, second, third)))
    return chosen


def symbols(count):
    """So many symbols of five letters and digits."""
    return some(count, (words(count, first + second) for first in string.ascii_uppercase for second in string.ascii_letters))


def long_names(count):
    """So many names of five letters and digits, which are none of the calculus."""
    return some(count, (words(count, first + second) for first in string.ascii_lowercase for second in string.ascii_letters))


def some(count, lists):
    return list(itertools.islice(itertools.chain.from_iterable(lists), count))
