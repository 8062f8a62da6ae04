"""Compares two reports as the program prints them. The order of a remove_all's events and of entries is no part of the
comparison, for an iterator of JSR 107 has none.

    alike.py REPORT REPORT
"""
import re
import sys

PAIR = re.compile(r' ("[^"]*"="[^"]*")')


def lines(path):
    """The lines of a report, with those sorted that have no order."""
    found, events = [], []
    with open(path, encoding="utf-8") as report:
        for line in report:
            words = line.split()
            if words[1:2] == ["event"]:
                events.append(line)
                continue
            found += sorted(events) if words[1:2] == ["remove_all"] else events
            found.append(line if words[1:2] != ["entries"] else " ".join(words[:3] + sorted(PAIR.findall(line))) + "\n")
            events = []
    return found


def main(one, other):
    pairs = list(zip(lines(one), lines(other)))
    for number, (wanted, found) in enumerate(pairs):
        if wanted != found:
            print(f"line {number}: wanted {wanted.strip()}, got {found.strip()}")
            return 1
    if not pairs or len(lines(one)) != len(lines(other)):
        print("the reports have different lengths")
        return 1
    return 0


sys.exit(main(*sys.argv[1:]))
