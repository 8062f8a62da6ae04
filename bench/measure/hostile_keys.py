"""Keys that all have the same two buckets, at every size of the table, under a known seed.

The low 16 bits of FNV-1a depend on the low 16 bits of its state alone, and a step can be undone: so the last three
letters are looked up by the state before them, and only the tag (one of 255) is left to luck.
"""

import itertools

OFFSET, PRIME = 0xCBF29CE484222325, 0x100000001B3
LETTERS = b"abcdefghijklmnopqrstuvwxyzABCDEFGHIJKLMNOPQRSTUVWXYZ0123456789-_"
LOW_BITS, TAG = 0x1234, 77


def walk(state, text):
    """FNV-1a over further bytes."""
    for byte in text:
        state = ((state ^ byte) * PRIME) % 2**64
    return state


def tag(state):
    return 1 + (state >> 32) % 255


def endings():
    """By the low bits of a state, the three letters that lead from it to the low bits that are sought."""
    inverse = pow(PRIME, -1, 1 << 16)
    found = {LOW_BITS: [b""]}
    for _ in range(3):
        before = {}
        for state, texts in found.items():
            undone = state * inverse % 2**16
            for letter in LETTERS:
                before.setdefault(undone ^ letter, []).extend(bytes([letter]) + text for text in texts)
        found = before
    return found


def every_key(cache, seed):
    ends = endings()
    start = walk(OFFSET ^ seed, cache.to_bytes(4, "little"))
    for length in itertools.count(2):
        for letters in itertools.product(LETTERS, repeat=length):
            state = walk(start, letters)
            for end in ends.get(state % 2**16, ()):
                if tag(walk(state, end)) == TAG:
                    yield (bytes(letters) + end).decode()


def hostile_keys(count, cache=0, seed=0):
    """So many keys of the cache with this number."""
    return list(itertools.islice(every_key(cache, seed), count))
