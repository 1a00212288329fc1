"""The links of pages; for checks/documents."""
import os
import re

CODE = re.compile(r"(?<!`)`([^`]+)`(?!`)")


def lines_of(text):
    """The lines outside of blocks of code, each with its number."""
    within = False
    for number, line in enumerate(text.splitlines(), 1):
        if line.startswith("```"):
            within = not within
        elif not within:
            yield number, line


def anchors_of(text):
    """What a link may name behind its #: the headings, in small letters, with hyphens for blanks and without other signs."""
    headings = [it[1] for _, line in lines_of(text) if (it := re.match(r"#+ +(.*?) *$", line))]
    names = [re.sub(r"[^\w\- ]", "", it.lower()).replace(" ", "-") for it in headings]
    before = [names[:at].count(name) for at, name in enumerate(names)]
    return [f"{name}-{count}" if count else name for name, count in zip(names, before)]


def links_of(text):
    """The links to files and headings, each with the number of its line, the file and the anchor."""
    for number, line in lines_of(text):
        for file, anchor in re.findall(r"\]\(([^)#]*)(?:#([^)]*))?\)", CODE.sub("", line)):
            if "://" not in file:
                yield number, file, anchor


def links_differ(pages, is_there):
    """The links of pages, which are given by their places, that lead to no file that is there or to no heading."""
    anchors = {place: anchors_of(text) for place, text in pages.items()}
    found = []
    for place, text in pages.items():
        for number, file, anchor in links_of(text):
            to = os.path.normpath(os.path.join(os.path.dirname(place), file)) if file else place
            if not is_there(to):
                found.append(f"{place}:{number}: a link to {to}, which is not there")
            elif anchor and anchor not in anchors.get(to, []):
                found.append(f"{place}:{number}: a link to #{anchor}, and {to} has no such heading")
    return found
