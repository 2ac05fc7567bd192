"""The tokens of JavaScript with JSX and of TypeScript, for the module `tokens`.

Whether a slash divides, whether a less-than sign begins an element, and what a brace closes depends on the tokens before. So
unlike the other languages it takes more than one pattern, and a list of what is open.
"""
from __future__ import annotations

import re
from typing import Iterator

COMMENT = r"(?P<comment>//[^\n\r\u2028\u2029]*|/\*.*?\*/|\#![^\n\r]*)"
NAME = r"\#?(?:[^\W\d]|[$]|\\u[0-9a-fA-F]{4}|\\u\{[0-9a-fA-F]+\})(?:[\w$\u200c\u200d]|\\u[0-9a-fA-F]{4}|\\u\{[0-9a-fA-F]+\})*"
NUMBER = r"""0[xX][0-9a-fA-F_]+n?|0[bB][01_]+n?|0[oO][0-7_]+n?|\.[0-9][0-9_]*(?:[eE][+-]?[0-9][0-9_]*)?
    |[0-9][0-9_]*(?:n|(?:\.[0-9_]*)?(?:[eE][+-]?[0-9][0-9_]*)?)"""
STRING = r'"(?:\\(?:\r\n|.)|[^"\\\n\r])*"' + r"|'(?:\\(?:\r\n|.)|[^'\\\n\r])*'"
TEMPLATE = r"(?:\\.|[^\\`$]|\$(?!\{))*(?:`|\$\{)"
REGEX = r"/(?![*/])(?:\\[^\n\r]|\[(?:\\[^\n\r]|[^\]\\\n\r])*\]|[^/\\\[\n\r])+/[\w$]*"
PUNCTUATOR = r"""\.\.\.|>>>=|<<=|>>=|\*\*=|&&=|\|\|=|\?\?=|===|!==|>>>|=>|\?\.(?![0-9])|\?\?|&&|\|\||\+\+|--|\*\*|<<|>>
    |[=!<>+\-*/%&|^]=|[^\s]"""


def pattern(*tokens: str) -> re.Pattern[str]:
    return re.compile(r"[\s\ufeff]*(?:" + COMMENT + "|(?P<token>" + "|".join(tokens) + "))", re.DOTALL | re.VERBOSE)


# several greater-than signs of TypeScript are one each, unless an equals sign follows
CLOSING = r">(?=>(?!>?=))"

# by whether the language is TypeScript, an operand is expected, and a closing brace ends a substitution
OUTSIDE = {
    (is_typed, operand, ends): pattern(NAME, NUMBER, STRING, "`" + TEMPLATE, *([r"\}" + TEMPLATE] if ends else []), *([REGEX] if operand else []),
                                       *([CLOSING] if is_typed else []), PUNCTUATOR)
    for is_typed in (False, True) for operand in (False, True) for ends in (False, True)}
IN_TAG = pattern(r"(?:[^\W\d]|[$])[\w$-]*", r'"[^"]*"', r"'[^']*'", r"[.:=/><{]")
# A text of an element has no comments.
CHILD = re.compile(r"[\t-\r ]*(?:(?P<comment>(?!))|(?P<token>[^<>{}\t-\r ]+(?:[\t-\r ]+[^<>{}\t-\r ]+)*|<[\t-\r ]*/[^<>{}]*>|[<{]))")

WORDS = frozenset("""await break case catch class const continue debugger default delete do else enum export extends finally for function if
    import in instanceof new return switch throw try typeof var void while with yield""".split())


class Reader:
    """What is open at a place of a text, the innermost last, and whether an operand is expected there."""

    def __init__(self, is_typed: bool) -> None:
        self.is_typed = is_typed
        self.opened: list[str] = []
        self.operand = True
        self.after_point = False
        self.after_slash = False

    @property
    def inside(self) -> str:
        return self.opened[-1] if self.opened else ""

    def pattern(self) -> re.Pattern[str]:
        if self.inside in ("tag", "element"):
            return IN_TAG if self.inside == "tag" else CHILD
        return OUTSIDE[self.is_typed, self.operand, self.inside == "substitution"]

    def open(self, what: str) -> None:
        self.opened.append(what)
        self.operand, self.after_slash = True, False

    def close(self, operand: bool) -> None:
        if self.opened:
            self.opened.pop()
        self.operand, self.after_slash = operand, False

    def passes(self, spelling: str) -> None:
        """What a token changes."""
        inside, after_slash, after_point = self.inside, self.after_slash, self.after_point
        self.after_slash, self.after_point = False, False
        if inside in ("tag", "element") and spelling in ("{", "<"):
            self.open("brace" if spelling == "{" else "tag")
        elif inside == "element":
            if spelling[0] == "<":
                self.close(False)
        elif inside == "tag":
            self.after_slash = spelling == "/"
            if spelling == ">":
                self.close(False)
                if not after_slash:
                    self.open("element")
        elif spelling[0] == "`" or spelling[0] == "}" and len(spelling) > 1:
            self.passes_template(spelling)
        elif spelling == "{":
            # outside everything else a brace opens nothing that matters
            if self.opened:
                self.open("brace")
            self.operand = True
        elif spelling == "}":
            self.close(True)
        elif spelling == "<" and self.operand and not self.is_typed:
            self.open("tag")
        elif spelling == "!" and not self.operand and self.is_typed:
            # it asserts that the operand is there
            self.operand = False
        else:
            self.after_point = spelling in (".", "?.")
            ends = spelling in (")", "]", "++", "--") or (after_point or spelling not in WORDS) and is_operand(spelling)
            self.operand = not ends

    def passes_template(self, spelling: str) -> None:
        if spelling.endswith("${"):
            if spelling[0] == "`":
                self.open("substitution")
            self.operand = True
        elif spelling[0] == "}":
            self.close(False)
        else:
            self.operand = False


def is_operand(spelling: str) -> bool:
    """Whether a token that is no template is a name or a literal."""
    return bool(re.match(r"""[\w$\#\\"']|\.[0-9]|/.+/""", spelling, re.DOTALL))


def matches_of(text: str, is_typed: bool) -> Iterator[re.Match[str]]:
    """A match for each token and comment, with the group `token` or `comment`, up to where the text has a fault."""
    reader, at = Reader(is_typed), 0
    while match := reader.pattern().match(text, at):
        yield match
        at = match.end()
        if match.lastgroup == "token":
            reader.passes(match.group("token"))
