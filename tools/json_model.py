"""A slow model of JSON texts (RFC 8259), written from docs/FORMATS.md."""

import re

DIGITS = "0123456789"


class Fault(Exception):
    """A text that is no JSON text."""


class TooDeep(Exception):
    """A JSON text in which 129 brackets are open at once."""


# Characters of a string that are what they are.
PLAIN = re.compile('[^"\\\\\x00-\x1f]*')


class JsonNumber(str):
    """A number's text."""


class JsonReader:
    """A JSON text (RFC 8259) that is read from the left. Objects are dicts."""

    def __init__(self, text):
        self.text, self.at = text, 0

    def skip_spaces(self):
        while self.text[self.at : self.at + 1] in (" ", "\t", "\n", "\r"):
            self.at += 1

    def takes(self, mark):
        if not self.text.startswith(mark, self.at):
            return False
        self.at += len(mark)
        return True

    def whole(self):
        value = self.value(0)
        self.skip_spaces()
        if self.at < len(self.text):
            raise Fault()
        return value

    def value(self, depth):
        self.skip_spaces()
        first = self.text[self.at : self.at + 1]
        if first == '"':
            self.at += 1
            return self.string()
        if first in ("[", "{"):
            if depth == 128:
                raise TooDeep()
            self.at += 1
            return self.array(depth + 1) if first == "[" else self.object(depth + 1)
        for word, value in (("null", None), ("true", True), ("false", False)):
            if first == word[0] and self.takes(word):
                return value
        return self.number()

    def array(self, depth):
        items = []
        self.skip_spaces()
        if self.takes("]"):
            return items
        while True:
            items.append(self.value(depth))
            self.skip_spaces()
            if self.takes("]"):
                return items
            if not self.takes(","):
                raise Fault()

    def object(self, depth):
        members = {}
        self.skip_spaces()
        if self.takes("}"):
            return members
        while True:
            self.skip_spaces()
            if not self.takes('"'):
                raise Fault()
            key = self.string()
            self.skip_spaces()
            if not self.takes(":"):
                raise Fault()
            members[key] = self.value(depth)
            self.skip_spaces()
            if self.takes("}"):
                return members
            if not self.takes(","):
                raise Fault()

    def string(self):
        out = ""
        while not self.takes('"'):
            plain = PLAIN.match(self.text, self.at)
            out += plain.group()
            self.at = plain.end()
            character = self.text[self.at : self.at + 1]
            if not character or ord(character) < 32:
                raise Fault()
            if character == "\\":
                self.at += 1
                out += self.escape()
        return out

    def unit(self):
        digits = self.text[self.at : self.at + 4]
        if len(digits) < 4 or any(c not in "0123456789abcdefABCDEF" for c in digits):
            raise Fault()
        self.at += 4
        return int(digits, 16)

    def escape(self):
        letter = self.text[self.at : self.at + 1]
        self.at += 1
        plain = {'"': '"', "\\": "\\", "/": "/", "b": "\b", "f": "\f", "n": "\n", "r": "\r", "t": "\t"}
        if letter in plain:
            return plain[letter]
        if letter != "u":
            raise Fault()
        unit = self.unit()
        if 0xDC00 <= unit < 0xE000:
            raise Fault()
        if not 0xD800 <= unit < 0xDC00:
            return chr(unit)
        if not self.takes("\\u"):
            raise Fault()
        low = self.unit()
        if not 0xDC00 <= low < 0xE000:
            raise Fault()
        return chr(0x10000 + (unit - 0xD800) * 1024 + low - 0xDC00)

    def digits(self):
        start = self.at
        while self.text[self.at : self.at + 1] and self.text[self.at] in DIGITS:
            self.at += 1
        if start == self.at:
            raise Fault()

    def number(self):
        start = self.at
        self.takes("-")
        if not self.takes("0"):
            self.digits()
        if self.takes("."):
            self.digits()
        if self.takes("e") or self.takes("E"):
            if not self.takes("+"):
                self.takes("-")
            self.digits()
        return JsonNumber(self.text[start : self.at])
