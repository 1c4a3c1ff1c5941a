"""Reads TOML 1.1 with the place of each value, which Python's own reader doesn't tell.

`read(text)` gives the top table as a Place; Fault has the line and the cause where the text is no TOML that `mesh` takes: numbers have
64 bits, a key has at most 80 parts, and at most 80 arrays and inline tables stand in each other."""
import re

DEPTH = 80
BARE = re.compile(r"[A-Za-z0-9_-]+")
WHOLE = re.compile(r"[+-]?(0|[1-9](_?\d)*)|0x[\da-fA-F](_?[\da-fA-F])*|0o[0-7](_?[0-7])*|0b[01](_?[01])*")
FRACTION = re.compile(r"[+-]?((0|[1-9](_?\d)*)(\.\d(_?\d)*)?([eE][+-]?\d(_?\d)*)?|inf|nan)")
MOMENT = re.compile(r"\d{4}-\d\d-\d\d([Tt ]\d\d:\d\d(:\d\d(\.\d+)?)?([Zz]|[+-]\d\d:\d\d)?)?|\d\d:\d\d(:\d\d(\.\d+)?)?")
ESCAPES = {"b": "\b", "t": "\t", "n": "\n", "f": "\f", "r": "\r", "e": "\x1b", '"': '"', "\\": "\\"}
CONTROL = re.compile(r"[\x00-\x08\x0b\x0c\x0e-\x1f\x7f]|\r(?!\n)")


class Fault(Exception):
    def __init__(self, line, why):
        super().__init__(f"line {line}: {why}")
        self.line, self.why = line, why


class Place:
    """A value of a text: a dict, list, str, int, bool or, for any other, None; its first line; where its octets begin and end."""

    def __init__(self, value, line, begin=None, how="value"):
        self.value, self.line, self.begin, self.end, self.how = value, line, begin, None, how

    def plain(self):
        """The value by itself."""
        if isinstance(self.value, dict):
            return {key: place.plain() for key, place in self.value.items()}
        return [place.plain() for place in self.value] if isinstance(self.value, list) else self.value


class Reader:
    def __init__(self, text):
        self.text, self.at, self.counted, self.line = text.removeprefix("\ufeff"), 0, 0, 1

    def fault(self, why, line=None):
        return Fault(line or self.here(), why)

    def here(self):
        """The line of the next character; what has been counted is not counted again."""
        self.line += self.text.count("\n", self.counted, self.at)
        self.counted = max(self.counted, self.at)
        return self.line

    def next(self, width=1):
        return self.text[self.at:self.at + width]

    def take(self, word):
        taken = self.text.startswith(word, self.at)
        self.at += len(word) if taken else 0
        return taken

    def blanks(self, lines=False):
        """Passes blanks; with `lines` also comments and the ends of lines."""
        while self.next() and self.next() in (" \t\r\n" if lines else " \t") or lines and self.next() == "#":
            if self.next() == "#":
                end = self.text.find("\n", self.at)
                self.at = len(self.text) if end < 0 else end
            else:
                self.at += 1

    def end_line(self):
        self.blanks()
        if self.next() not in ("", "\n", "#") and self.next(2) != "\r\n":
            raise self.fault(f"`{self.rest()}` stands where the line should end")

    def rest(self):
        return self.text[self.at:].split("\n")[0].strip()[:40]

    def key(self):
        """A key's parts: bare words and strings with dots between."""
        parts = []
        while True:
            self.blanks()
            bare = BARE.match(self.text, self.at)
            if bare:
                self.at = bare.end()
                parts.append(bare[0])
            elif self.next() in ('"', "'") and self.next():
                parts.append(self.string())
            else:
                raise self.fault(f"a key is wanted before `{self.rest()}`; a text stands in quotes" if self.rest() else "a key is wanted")
            self.blanks()
            if len(parts) > DEPTH:
                raise self.fault(f"the key has more than {DEPTH} parts")
            if not self.take("."):
                return parts

    def string(self):
        quote, begun = self.next(), self.here()
        quote = quote * 3 if self.next(3) == quote * 3 else quote
        self.at += len(quote)
        if len(quote) == 3:
            self.take("\r\n") or self.take("\n")
        out = []
        while not self.take(quote):
            if self.at >= len(self.text) or len(quote) == 1 and self.next() == "\n":
                raise self.fault(f"the quote {quote} is not closed", begun)
            out.append(self.escape(len(quote) == 3) if quote[0] == '"' and self.next() == "\\" else self.next())
            self.at += 1
        while len(quote) == 3 and self.take(quote[0]):
            out.append(quote[0])
        return "".join(out)

    def escape(self, folds):
        """What an escape stands for, the end of a line only where a string may fold; the place is then its last character."""
        self.at += 1
        letter = self.next()
        if letter in ESCAPES:
            return ESCAPES[letter]
        folded = re.compile(r"[ \t]*\r?\n[ \t\r\n]*").match(self.text, self.at)
        if folds and folded:
            self.at = folded.end() - 1
            return ""
        digits = self.text[self.at + 1:self.at + 1 + {"x": 2, "u": 4, "U": 8}.get(letter, 0)]
        if not digits or not re.fullmatch(r"[\da-fA-F]+", digits) or len(digits) not in (2, 4, 8):
            raise self.fault(f"`\\{letter}` is no escape")
        self.at += len(digits)
        if not (int(digits, 16) < 0xD800 or 0xDFFF < int(digits, 16) < 0x110000):
            raise self.fault(f"`\\{letter}{digits}` is no character")
        return chr(int(digits, 16))

    def value(self, depth):
        self.blanks()
        place = Place(None, self.here(), self.at)
        if depth > DEPTH and self.next() in ("[", "{"):
            raise self.fault(f"more than {DEPTH} arrays and inline tables stand in each other")
        if self.next() in ('"', "'") and self.next():
            place.value = self.string()
        elif self.take("["):
            place.value = []
            self.items("]", lambda: place.value.append(self.value(depth + 1)))
        elif self.take("{"):
            place.value, place.how = {}, "inline"
            self.items("}", lambda: self.pair(place, depth + 1))
            close(place)
        else:
            place.value = self.scalar()
        place.end = self.at
        return place

    def items(self, end, item):
        """Items with commas between, maybe one behind the last, up to the end."""
        begun = self.here()
        while True:
            self.blanks(lines=True)
            if self.take(end):
                return
            if self.at >= len(self.text):
                raise self.fault(f"`{end}` is missing", begun)
            item()
            self.blanks(lines=True)
            if not self.take(",") and self.next() != end:
                rest = self.rest()
                raise self.fault(f"`,` or `{end}` is wanted before `{rest}`") if rest else self.fault(f"`{end}` is missing", begun)

    def scalar(self):
        word = re.compile(r"[^,\]}#\r\n]*").match(self.text, self.at)[0].rstrip(" \t")
        if word in ("true", "false"):
            self.at += len(word)
            return word == "true"
        if WHOLE.fullmatch(word):
            number = int(word.replace("_", ""), 0)
            if not -2**63 <= number < 2**63:
                raise self.fault(f"{word} has more than 64 bits")
            self.at += len(word)
            return number
        if MOMENT.fullmatch(word) or FRACTION.fullmatch(word) and (word.strip("+-") in ("inf", "nan") or abs(float(word)) < float("inf")):
            self.at += len(word)
            return None
        raise self.fault(f"`{word[:40]}` is no value; a text stands in quotes" if word else "a value is missing behind `=`")

    def pair(self, table, depth):
        """A key and its value into a table; a key with dots makes tables that only such keys extend."""
        self.blanks()
        line = self.here()
        *path, last = self.key()
        for part in path:
            below = table.value.setdefault(part, Place({}, line, how="dotted"))
            if below.how != "dotted":
                raise self.fault(f"`{part}` stands at line {below.line} already", line)
            table = below
        if not self.take("="):
            raise self.fault(f"`=` is wanted before `{self.rest()}`" if self.rest() else f"`=` is missing behind `{last}`", line)
        if last in table.value:
            raise self.fault(f"`{last}` stands at line {table.value[last].line} already", line)
        table.value[last] = self.value(depth)
        table.value[last].line = line

    def heading(self, top):
        """The table of the heading `[a.b]`, or the new last one of `[[a.b]]`."""
        line, many = self.here(), self.take("[[") or not self.take("[")
        *path, last = self.key()
        if not self.take("]]" if many else "]"):
            raise self.fault(f"`{']]' if many else ']'}` is missing", line)
        table = top
        for part in path:
            table = table.value.setdefault(part, Place({}, line, how="implied"))
            table = table.value[-1] if table.how == "tables" else table
            if not isinstance(table.value, dict) or table.how == "inline":
                raise self.fault(f"`{part}` at line {table.line} is no table that a heading extends", line)
        there = table.value.get(last)
        if many and (there is None or there.how == "tables"):
            there = table.value.setdefault(last, Place([], line, how="tables"))
            there.value.append(Place({}, line, how="headed"))
            return there.value[-1]
        if not many and (there is None or there.how == "implied"):
            there = table.value.setdefault(last, Place({}, line, how="headed"))
            there.how, there.line = "headed", line
            return there
        raise self.fault(f"`{last}` stands at line {there.line} already; each of several tables has a heading in two brackets", line)

    def document(self):
        bad = CONTROL.search(self.text)
        if bad:
            raise self.fault(f"a control character {bad[0]!r}", self.text.count("\n", 0, bad.start()) + 1)
        top = table = Place({}, 1, 0, how="headed")
        while True:
            self.blanks(lines=True)
            if self.at >= len(self.text):
                return top
            if self.next() == "[":
                table = self.heading(top)
            else:
                self.pair(table, 1)
            self.end_line()


def close(place):
    """No key extends an inline table, nor the tables that its keys with dots made."""
    place.how = "inline"
    for below in place.value.values():
        if below.how == "dotted":
            close(below)


def read(text):
    """The top table of a text of octets."""
    try:
        return Reader(text.decode()).document()
    except UnicodeDecodeError as fault:
        raise Fault(text.count(b"\n", 0, fault.start) + 1, "an octet that is no UTF-8") from None
