"""Puts rows with keys of 16 bytes and values of 100 into a `cachetools.LRUCache`, and prints the bytes that one takes.

    rows.py ROWS
"""

import os
import sys

import cachetools


def resident():
    """The bytes of memory that this process has."""
    with open("/proc/self/statm") as told:
        return int(told.read().split()[1]) * os.sysconf("SC_PAGESIZE")


def main():
    rows = int(sys.argv[1])
    before = resident()
    cache = cachetools.LRUCache(rows)
    for number in range(rows):
        cache["user:%011d" % number] = bytes(100)
    print((resident() - before) // rows)


main()
