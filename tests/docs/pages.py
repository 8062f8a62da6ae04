"""The pages, their headings, and their marked blocks."""

import glob
import os
import re
from dataclasses import dataclass
from typing import Optional

MARK = re.compile(r"^<!-- (file|from|run)(?:: (.*))? -->$")
UNREAD = {".git", "out", "target", "node_modules"}


@dataclass(frozen=True)
class Page:
    """A page, by its name below the top folder."""

    name: str
    text: str


@dataclass(frozen=True)
class Block:
    """A fenced block behind a mark: its kind and what the mark says of it. No text where no block follows."""

    kind: str
    said: str
    line: int
    text: Optional[str]


def page_of(top, name):
    with open(os.path.join(top, name), encoding="utf-8") as file:
        return Page(name, file.read())


def counted_pages(top):
    """README and docs, whose words are counted and whose samples are run."""
    docs = sorted(glob.glob(os.path.join(top, "docs", "*.md")))
    return [page_of(top, "README.md")] + [page_of(top, os.path.relpath(path, top)) for path in docs]


def all_pages(top):
    """Every page of the repository."""
    found = []
    for folder, below, names in os.walk(top):
        below[:] = sorted(set(below) - UNREAD)
        found += [os.path.relpath(os.path.join(folder, name), top) for name in sorted(names) if name.endswith(".md")]
    return [page_of(top, name) for name in found]


def block_at(lines, first):
    """The text of the fenced block that begins at this line, or below blank ones."""
    while first < len(lines) and not lines[first]:
        first += 1
    if first == len(lines) or not lines[first].startswith("```"):
        return None
    last = next((place for place in range(first + 1, len(lines)) if lines[place] == "```"), None)
    return None if last is None else "".join(f"{line}\n" for line in lines[first + 1 : last])


def blocks(page):
    """The marked blocks, in order."""
    lines = page.text.splitlines()
    for place, line in enumerate(lines):
        mark = MARK.match(line)
        if mark:
            yield Block(mark[1], mark[2] or "", place + 1, block_at(lines, place + 1))


def without_code(text):
    """The text without fenced blocks, indented ones and code in a line."""
    text = re.sub(r"^```.*?^```$", "", text, flags=re.M | re.S)
    text = re.sub(r"^(    ).*$", "", text, flags=re.M)
    return re.sub(r"`[^`\n]*`", "", text)


def headings(text):
    """The anchors of a page's headings."""
    anchors = {}
    for title in re.findall(r"^#+ (.*)$", re.sub(r"^```.*?^```$", "", text, flags=re.M | re.S), flags=re.M):
        plain = re.sub(r"[^\w\- ]", "", title.lower()).replace(" ", "-")
        count = anchors.get(plain, 0)
        anchors[plain] = count + 1
        yield plain if count == 0 else f"{plain}-{count}"
