"""The forms of an SMT-LIB script, with the places where they stand. docs/PROFILE.md has the rules."""
import re

TOKEN = re.compile(
    rb"""(?P<space>[ \t\r\n]+|;[^\r\n]*)
    |(?P<open>\()|(?P<close>\))
    |(?P<text>"[^"]*(?:""[^"]*)*"(?!"))
    |(?P<quoted>\|[^|\\]*\|)
    |(?P<broken>\|[^|]*\||["|].*\Z)
    |(?P<word>[^ \t\r\n;()"|]+)""",
    re.X | re.S,
)


class Form:
    """A token or a list of forms: `bytes` from `start` to `end`, on `line`, counted from 1.

    `kind` is 'list', 'text', 'quoted' or 'word'; of what is no form 'close' (a parenthesis that closes nothing),
    'broken' (a text or quoted symbol that does not end, or a backslash between bars) or 'open' (a list that does not
    end; `parts` are what it has).
    """

    def __init__(self, kind, source, start, end, line, parts=()):
        self.kind, self.source, self.start, self.end, self.line, self.parts = kind, source, start, end, line, list(parts)

    @property
    def text(self):
        return self.source[self.start : self.end].decode("utf-8", "replace")

    @property
    def name(self):
        """The symbol that this form is, without bars, or None."""
        if self.kind == "quoted":
            return self.text[1:-1]
        return self.text if self.kind == "word" else None

    @property
    def head(self):
        """The symbol that a list begins with, or None."""
        return self.parts[0].name if self.kind in ("list", "open") and self.parts else None

    def walk(self):
        """This form and all forms in it, in reading order."""
        waiting = [self]
        while waiting:
            form = waiting.pop()
            yield form
            waiting += reversed(form.parts)


def forms(source):
    """Yields the forms of a script, which is bytes, from its start to its end."""
    at, line, waiting = 0, 1, []
    while at < len(source):
        found = TOKEN.match(source, at)
        kind, end, form = found.lastgroup, found.end(), None
        if kind == "open":
            waiting.append(Form("open", source, at, end, line))
        elif kind == "close" and waiting:
            form = waiting.pop()
            form.kind, form.end = "list", end
        elif kind != "space":
            form = Form(kind, source, at, end, line)
        if form is not None:
            if waiting:
                waiting[-1].parts.append(form)
                waiting[-1].end = end
            else:
                yield form
        line += source.count(b"\n", at, end)
        at = end
    if waiting:
        for above, below in zip(waiting[::-1], waiting[-2::-1]):
            below.parts.append(above)
            below.end = len(source)
        yield waiting[0]
