"""A crawler's set of pages that were seen: `crawler.py SEEN FOLDER PAGE..`.

Eight threads visit the pages, and what these link to within the folder, each page once. The set is
kept in the file SEEN, which several crawlers may share while they run. A later run visits only
pages that no earlier one did. One page in a million may be taken for one that was seen.
"""

import contextlib
import os
import re
import sys
from concurrent.futures import ThreadPoolExecutor
from pathlib import Path

from fastbloom import Filter, SharedFilter

THREADS = 8


def open_seen(path):
    """The filter of a file, which is made if there is none."""
    if not os.path.exists(path):
        # A file that is filled while it is mapped has no seal. It gets its name by a link, which
        # leaves the file of another crawler that came first.
        made = f"{path}.{os.getpid()}"
        Filter(1_000_000, "1/1000000").save(made, sealed=False)
        try:
            with contextlib.suppress(FileExistsError):
                os.link(made, path)
        finally:
            os.remove(made)
    return SharedFilter.map(path)


def links_of(folder, page):
    """The pages of the folder to which a page links."""
    try:
        text = (folder / page).read_text(encoding="utf-8")
    except (OSError, ValueError):  # no page, as a folder is none, or no name, or no UTF-8
        return []
    found = (
        os.path.normpath(os.path.join(os.path.dirname(page), link))
        for link in re.findall(r'href="([^"#:]+)["#]', text)
    )
    return [link for link in found if not link.startswith(("..", "/"))]


def crawl(seen, folder, pages):
    """Visits pages, then those that they link to, and so on, and gives those that it visited."""

    def visit(page):
        # Of threads that add one page at once, one is told that it is new, and in rare cases more
        # than one.
        return None if seen.add(os.fsencode(page)) else links_of(folder, page)

    visited = []
    with ThreadPoolExecutor(THREADS) as pool:
        while pages:
            links = list(pool.map(visit, pages))
            visited += [page for page, found in zip(pages, links) if found is not None]
            pages = [link for found in links for link in found or []]
    return visited


def main():
    if len(sys.argv) < 4:
        sys.exit("usage: crawler.py SEEN FOLDER PAGE..")
    seen = open_seen(sys.argv[1])
    for page in sorted(crawl(seen, Path(sys.argv[2]), sys.argv[3:])):
        print(page)
    seen.release()


main()
