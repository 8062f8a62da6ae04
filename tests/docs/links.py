"""Links between pages."""

import os
import re

from pages import headings, page_of, without_code

LINK = re.compile(r"\[[^\]]*\]\(([^)\s]+)\)")


def link_faults(top, page):
    """What is wrong with a page's relative links."""
    for target in LINK.findall(without_code(page.text)):
        if "://" in target or target.startswith("mailto:"):
            continue
        path, _, anchor = target.partition("#")
        folder = os.path.dirname(page.name)
        name = os.path.normpath(os.path.join(folder, path)) if path else page.name
        if not os.path.exists(os.path.join(top, name)):
            yield f"{page.name}: {target}: no such file"
        elif anchor and anchor not in headings(page_of(top, name).text):
            yield f"{page.name}: {target}: no such heading"
