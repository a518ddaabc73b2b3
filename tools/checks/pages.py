"""Checks that the pages of a package lead nowhere else: pages.py PACKAGE REPOSITORY. Each link has to lead to a file of
the package or to a heading. Each path that is mentioned, in text or in a command, has to be one of the package, if it
starts with a folder of the package or of the repository, or with ./ and a file of the repository."""

import glob
import pathlib
import re
import sys
from typing import Iterator, List, Set, Tuple

# What the repository builds, beside the folders that it has.
BUILT = {"target"}

LINK = re.compile(r"\]\(([^)\s]+)\)")
CODE = re.compile(r"`[^`]*`")
MENTION = re.compile(r"(?<![\w$./-])(?:\./)?[\w.-]+(?:/[\w.*-]*)*")


def anchors(page: pathlib.Path) -> Set[str]:
    """The names by which links find the headings of a page."""
    headings = re.findall(r"^#+ (.*)$", page.read_text(), re.M)
    return {re.sub(r"[^\w -]", "", heading).strip().lower().replace(" ", "-") for heading in headings}


def leads(page: pathlib.Path, link: str) -> bool:
    """Whether a link of a page leads to another address, to a file or to a heading."""
    if re.match(r"[a-z]+:", link):
        return True
    path, _, anchor = link.partition("#")
    target = page.parent / path if path else page
    return target.exists() and (not anchor or anchor in anchors(target))


def mentions(line: str, package: pathlib.Path, repository: pathlib.Path) -> Iterator[str]:
    """The paths of a line that start as those of the package or of the repository do."""
    folders = {entry.name for root in (package, repository) for entry in root.iterdir() if entry.is_dir()} | BUILT
    for word in MENTION.findall(line):
        path = word.rstrip(".")
        first = path.split("/")[1 if path.startswith("./") else 0]
        if path.startswith("./") and (repository / path).exists() or "/" in path and first in folders:
            yield path


def there(package: pathlib.Path, page: pathlib.Path, path: str) -> bool:
    """Whether a path is one of the package, from its root or from the page's folder."""
    return any(glob.glob(str(start / path)) for start in (package, page.parent))


def faults(package: pathlib.Path, repository: pathlib.Path, page: pathlib.Path) -> Iterator[Tuple[int, str]]:
    """The links and the paths of a page that lead nowhere, with their lines."""
    for number, line in enumerate(page.read_text().splitlines(), 1):
        links = [] if line.startswith("    ") else LINK.findall(CODE.sub("", line))
        yield from ((number, link) for link in links if not leads(page, link))
        outside = mentions(LINK.sub("", line), package, repository)
        yield from ((number, path) for path in outside if not there(package, page, path))


def main(arguments: List[str]) -> int:
    package, repository = map(pathlib.Path, arguments)
    pages = sorted(package.rglob("*.md"))
    found = [(page, number, path) for page in pages for number, path in faults(package, repository, page)]
    for page, number, path in found:
        print(f"{page.relative_to(package)}:{number}: {path} is not in the package")
    print(f"{len(pages)} pages, on which all links and paths are those of the package")
    return 1 if found or not pages else 0


if __name__ == "__main__":
    sys.exit(main(sys.argv[1:]))
