"""The parts of the page MIGRATING that are generated from the table: its contents, its search and its list.

`python3 -m work65.habits.page PAGE` puts them into the page."""
import re
import sys
from typing import List

from work65.habits.table import HABITS

FILES = "--include='*.s' --include='*.inc' --include='*.asm' --include='*.mac'"
BEGIN, END = "<!-- made of the table of work65: {} -->", "<!-- end of {} -->"


def anchor(heading: str) -> str:
    """Returns the anchor of a heading."""
    return re.sub(r"[^\w\- ]", "", heading.lower()).replace(" ", "-")


def search() -> str:
    """Returns the search, for users without work65."""
    words = sorted({word[1:] for it in HABITS for word in it.words})
    groups = [words[at : at + 16] for at in range(0, len(words), 16)]
    patterns = [f"^[^;]*\\.({'|'.join(it)})([^a-z0-9_]|$)" for it in groups]
    patterns += [pattern for it in HABITS for pattern in it.search]
    exact = [pattern for it in HABITS for pattern in it.exact]
    return f"```sh\n{_grep('-rnsEi', patterns)}\n{_grep('-rnsE', exact)}\n```\n"


def _grep(options: str, patterns: List[str]) -> str:
    """Returns one command of the search."""
    quoted = [f"'{it}'" for it in patterns]
    return "\n".join([f"grep {options} {FILES} \\", *(f"  -e {it} \\" for it in quoted), "  ."])


def listing() -> str:
    """Returns the list of findings, each with its replacement and its heading."""
    rows = ["| What | In its place | Under |", "|---|---|---|"]
    for it in HABITS:
        if it.name in ("form", "macro-call"):
            continue
        cure = it.cure.replace("|", "\\|")
        rows.append(f"| {it.shown} | {cure} | [{_short(it.heading)}](#{anchor(it.heading)}) |")
    return "\n".join(rows) + "\n"


def _short(heading: str) -> str:
    """Returns a heading, without the text after its first colon or comma if it is long."""
    return heading if len(heading) <= 44 else re.split(r"[:,] ", heading)[0]


def contents(page: str) -> str:
    """Returns the headings of the page as links."""
    found = []
    for rank, heading in re.findall(r"^(##|###) (.*)$", re.sub(r"^```.*?^```$", "", page, flags=re.M | re.S), re.M):
        if heading != "Contents":
            found.append(f"{'  ' * (len(rank) - 2)}- [{heading}](#{anchor(heading)})")
    return "\n".join(found) + "\n"


def made(page: str) -> str:
    """Returns the page with its parts generated anew."""
    for name, part in (("contents", contents(page)), ("search", search()), ("list", listing())):
        begin, end = BEGIN.format(name), END.format(name)
        before, found, rest = page.partition(begin + "\n")
        if not found or end not in rest:
            raise SystemExit(f"the page has no place for its {name}")
        page = before + begin + "\n\n" + part + "\n" + end + rest.partition(end)[2]
    return page


if __name__ == "__main__":
    with open(sys.argv[1], encoding="utf-8") as it:
        text = it.read()
    with open(sys.argv[1], "w", encoding="utf-8") as it:
        it.write(made(text))
