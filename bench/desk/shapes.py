"""Which of the five shapes of docs/reference/normal-text.md a source holds, by their names here.

The source has neither carriage returns nor anything that can't be read. Two shapes are seen in its text, three in its tree.
"""

BEGINS_BADLY = "a pattern of many lines, or with a select, that begins with `.`, `[` or `*`"
AT_COLUMN_0 = "a placeable at column 0 that starts a line of a pattern"
LONE_MARK = "a lone `*` in a select"
WHITE_COMMENT = "a comment without lines, or with a line of white space alone"
ENDS_EMPTY = "a pattern whose last text is white space alone"

COMMENTS = ("Comment", "GroupComment", "ResourceComment")
WHITE_SPACE = "\t\n\v\f\r \x85\xa0\u1680" + "".join(map(chr, range(0x2000, 0x200B))) + "\u2028\u2029\u202f\u205f\u3000"


def shapes(text, tree):
    """The shapes that a source and its tree hold."""
    walk = Walk(text)
    walk.source()
    return walk.found | in_tree(tree)


def in_tree(part):
    """The shapes of a part of a tree, and of all that it holds."""
    if isinstance(part, list):
        return set().union(*map(in_tree, part))
    if not isinstance(part, dict):
        return set()
    found = in_tree(list(part.values()))
    if part["type"] == "Pattern":
        found |= of_pattern(part["elements"])
    if part["type"] in COMMENTS and is_white(part["content"]):
        found.add(WHITE_COMMENT)
    return found


def of_pattern(elements):
    """The shapes of a pattern, but for those in its placeables."""
    found = set()
    if elements and any(map(takes_lines, elements)):
        if elements[0]["type"] == "TextElement" and elements[0]["value"].startswith((".", "[", "*")):
            found.add(BEGINS_BADLY)
    if elements and elements[-1]["type"] == "TextElement" and elements[-1]["value"] == "":
        found.add(ENDS_EMPTY)
    return found


def takes_lines(element):
    """Whether an element is a text with a line feed, or a placeable with a select."""
    if element["type"] == "TextElement":
        return "\n" in element["value"]
    expression = element["expression"]
    while expression["type"] == "Placeable":
        expression = expression["expression"]
    return expression["type"] == "Select"


def is_white(lines):
    """Whether a comment has no lines, or one that isn't empty and is white space alone."""
    return not lines or any(line and not line.strip(WHITE_SPACE) for line in lines)


class Walk:
    """A walk through a source, from pattern to pattern."""

    def __init__(self, text):
        self.text = text
        self.at = 0
        self.found = set()

    def next(self):
        """The character at this place; none at the end."""
        return self.text[self.at : self.at + 1]

    def skip(self, characters):
        """Goes over characters of these."""
        while self.next() and self.next() in characters:
            self.at += 1

    def go_past(self, end):
        """Goes past the next `end`, or to the end of the source."""
        found = self.text.find(end, self.at)
        self.at = len(self.text) if found < 0 else found + len(end)

    def source(self):
        """Goes through the lines in which entries and attributes begin."""
        while self.next():
            self.skip(" ")
            if self.next() in ("", "\n", "#"):
                self.go_past("\n")
            else:
                self.go_past("=")
                self.pattern()

    def pattern(self):
        """Goes through a pattern, to the start of the line after it, or to a brace that ends it."""
        self.rest_of_line()
        while self.next() not in ("", "}"):
            start = self.at
            self.skip(" ")
            if self.next() == "{" and self.at == start:
                self.found.add(AT_COLUMN_0)
            elif self.next() not in ("\n", "{") and (self.at == start or self.next() in ("", "}", ".", "[", "*")):
                self.at = start
                return
            self.rest_of_line()

    def rest_of_line(self):
        """Goes through texts and placeables, past the end of the line or to a brace that closes."""
        while self.next() not in ("", "}"):
            if self.next() == "{":
                self.placeable()
            elif self.next() == "\n":
                self.at += 1
                return
            else:
                self.at += 1

    def placeable(self):
        """Goes through a placeable, past its last brace."""
        self.at += 1
        while self.next() not in ("", "}"):
            if self.next() == '"':
                self.string()
            elif self.next() == "{":
                self.placeable()
            elif self.text.startswith("->", self.at):
                self.at += 2
                self.variants()
            else:
                self.at += 1
        self.at += 1

    def string(self):
        """Goes through a string literal."""
        self.at += 1
        while self.next() not in ("", '"'):
            self.at += 2 if self.next() == "\\" else 1
        self.at += 1

    def variants(self):
        """Goes through the variants of a select, to the brace after them."""
        self.skip(" \n")
        while self.next() not in ("", "}"):
            if self.next() == "*":
                self.at += 1
                if self.next() != "[":
                    self.found.add(LONE_MARK)
            else:
                self.go_past("]")
                self.pattern()
            self.skip(" \n")
