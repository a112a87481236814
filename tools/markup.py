"""How what comes from a file stands in pages and pictures: as text, whatever it is."""
import html

from running import shown


def escaped(value, kept="", quote=False):
    """A value as the text of an element, with `quote` also of an attribute: nothing of it is markup, and what does not print is escaped."""
    return html.escape(shown(str(value), kept), quote)
