"""This file has the numbers that a seed gives, reckoned from the description of the generator: PCG32 on stream 1."""

import itertools

WORD, STATE = 1 << 32, 1 << 64
MULTIPLIER = 6_364_136_223_846_793_005
STREAM = 1


def words(seed):
    """The generator's words of 32 bits, without end."""
    increment = 2 * STREAM + 1
    state = (increment + seed) * MULTIPLIER + increment
    while True:
        state %= STATE
        mixed = ((state >> 18) ^ state) >> 27
        turned = mixed % WORD
        rotation = state >> 59
        yield (turned >> rotation | turned << (32 - rotation)) % WORD
        state = state * MULTIPLIER + increment


def drawn(seed, bound, count):
    """The answers of a seed to so many questions with this bound."""
    return [1 + word % bound for word in itertools.islice(words(seed), count)]
