"""Documents as they are installed: without links that lead nowhere.

A link that leads to a file that is not there becomes its text, with the path that the file has in the source tree, and
the document ends with a line that says so.
"""
import os
import pathlib
import re
import sys

LINK = re.compile(r"(?<!!)\[((?:[^\[\]\n]|\[[^\[\]\n]*\])*)\]\(([^()\s#:]+)(?:#[^()\s]*)?\)")
NOTE = "Paths in parentheses without a link are those of the source tree, at the commit that the file PROVED names."


def without_dead_links(text, folder, top):
    """The text of a document of this folder, where files under top are all that there is."""

    def plain(link):
        said, path = link.groups()
        place = os.path.normpath(folder / path)
        if os.path.exists(place):
            return link[0]
        path = os.path.relpath(place, top)
        return said if said.strip("`") == path else f"{said} ({path})"

    told = LINK.sub(plain, text)
    return told if told == text else f"{told.rstrip()}\n\n{NOTE}\n"


def main(top):
    top = pathlib.Path(top).resolve()
    for document in sorted(top.rglob("*.md")):
        text = document.read_text(encoding="utf-8")
        told = without_dead_links(text, document.parent, top)
        if told != text:
            document.write_text(told, encoding="utf-8")


if __name__ == "__main__":
    main(sys.argv[1])
