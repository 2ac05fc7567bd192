"""The tokens of a source text, as the server reads them, for marking what of a line belongs to a run.

The server reports the line of a run and the number of its first token, but no columns. So the page and the formats read the
text again, by the rules of docs/LANGUAGES.md that matter in practice. What comes out is used only for a file in which it
has as many tokens as the server counted: a text that the two read differently is shown without marks.
"""
from __future__ import annotations

import bisect
import re
from typing import Iterable, Iterator, Tuple

from . import javascript

# A token as a range of characters of its text: where it begins, and where it ends. An inserted semicolon of Go is empty.
Token = Tuple[int, int]

STRING = r'"(?:\\.|[^"\\\n\r])*"'
CHARACTER = r"'(?:\\.|[^'\\\n\r])+'"
COMMENT = r"(?P<comment>//[^\n{line_end}]*|/\*.*?\*/)"
# the numbers of the groups `comment` and `token` in each pattern
COMMENTS, TOKENS = 1, 2

JAVA = re.compile(r"\s*(?:" + COMMENT.format(line_end=r"\r") + r"""|(?P<token>
    [^\W\d$][\w$]*|[(){}\[\];,@~?]|\$[\w$]*
    |\"\"\"[ \t\f]*[\r\n](?:\\.|[^\\])*?\"\"\"|""" + STRING + "|" + CHARACTER + r"""
    |0[xX](?:[0-9a-fA-F_]+\.?[0-9a-fA-F_]*|\.[0-9a-fA-F_]+)(?:[pP][+-]?[0-9_]+)?[lLfFdD]?|0[bB][01_]+[lL]?
    |\.[0-9][0-9_]*(?:[eE][+-]?[0-9][0-9_]*)?[fFdD]?
    |[0-9][0-9_]*(?:\.(?:[0-9][0-9_]*)?)?(?:[eE][+-]?[0-9][0-9_]*)?[lLfFdD]?
    |>>>=|>>=|<<=|->|::|\.\.\.|\+\+|--|&&|\|\||[=!<>+\-*/&|^%]=|<<|[^\s\x1a]))""", re.DOTALL | re.VERBOSE)

GO = re.compile(r"\s*(?:" + COMMENT.format(line_end="") + r"""|(?P<token>
    [^\W\d]\w*|[(){}\[\];,~]|`[^`]*`|"(?:\\.|[^"\\\n])*"|'(?:\\.|[^'\\\n])+'
    |0[xX](?:_?[0-9a-fA-F])+(?:\.(?:[0-9a-fA-F](?:_?[0-9a-fA-F])*)?)?(?:[pP][+-]?[0-9](?:_?[0-9])*)?i?
    |0[bB](?:_?[01])+i?|0[oO](?:_?[0-7])+i?
    |\.[0-9](?:_?[0-9])*(?:[eE][+-]?[0-9](?:_?[0-9])*)?i?
    |[0-9](?:_?[0-9])*(?:\.(?:[0-9](?:_?[0-9])*)?)?(?:[eE][+-]?[0-9](?:_?[0-9])*)?i?
    |<<=|>>=|&\^=|\.\.\.|&&|\|\||<-|\+\+|--|[=!<>:+\-*/%&|^]=|<<|>>|&\^|[^\s]))""", re.DOTALL | re.VERBOSE)

# A header name is read only where the line begins with `#include`, so blanks are not part of a match here.
C = re.compile(COMMENT.format(line_end="") + r"""|(?P<token>(?!(?<![^\n])(?:\#|%:))(?:
    (?:u8|[uUL])?""" + STRING + "|[uUL]?" + CHARACTER + r"""
    |(?:[^\W\d]|\$|\\u[0-9a-fA-F]{4}|\\U[0-9a-fA-F]{8})(?:[\w$]|\\u[0-9a-fA-F]{4}|\\U[0-9a-fA-F]{8})*
    |\.?[0-9](?:[eEpP][+-]|[\w.$])*
    |%:%:|\.\.\.|<<=|>>=|->|\+\+|--|<<|>>|[<>=!*/%+\-&^|]=|&&|\|\||\#\#|<:|:>|<%|%>|%:|[^\s]))
    |(?<![^\n])[ \t\v\f\r]*(?P<hash>\#\#|\#|%:%:|%:)(?:[ \t\v\f\r]*(?P<include>include)[ \t\v\f\r]*(?P<header><[^>\n]+>|"[^"\n]+"))?
    """, re.DOTALL | re.VERBOSE)

ANY = re.compile(r"\s*(?:(?P<comment>(?!))|(?P<token>\w+|[^\w\s]))")

PATTERNS = {"java": JAVA, "go": GO, "c": C, "any": ANY}
LANGUAGES = frozenset((*PATTERNS, "js", "ts"))
MARK = re.compile("CPD-(OFF|ON)")
SPLICE = re.compile(r"\\\r?\n")
GO_LAST = re.compile(r"""[\w"'`]|\.[0-9]|\+\+$|--$|[)\]}]$""")
GO_KEYWORDS = frozenset("""case chan const default defer else for func go goto if import interface map package range select
    struct switch type var""".split())


def tokens_of(text: str, lang: str) -> list[Token]:
    """The tokens that the server lists, in their order: those between `CPD-OFF` and `CPD-ON` are left out."""
    if text.startswith("\ufeff"):
        return [(start + 1, end + 1) for start, end in tokens_of(text[1:], lang)]
    if lang == "c" and SPLICE.search(text):
        return unspliced(text)
    matches = PATTERNS[lang].finditer(text) if lang in PATTERNS else javascript.matches_of(text, lang == "ts")
    if lang == "go":
        return list(with_semicolons(text, all_tokens(matches)))
    if lang != "c" and "CPD-O" not in text:
        return [match.span(TOKENS) for match in matches if match.lastindex == TOKENS]
    return [token for token, is_listed in all_tokens(matches) if is_listed]


def all_tokens(matches: Iterable[re.Match[str]]) -> list[tuple[Token, bool]]:
    """Each token with whether it is listed."""
    found = []
    is_listed = True
    for match in matches:
        if match.lastindex == TOKENS:
            found.append((match.span(TOKENS), is_listed))
        elif match.lastindex == COMMENTS:
            words = MARK.findall(match.group())
            is_listed = words[-1] == "ON" if words else is_listed
        else:
            found.extend((match.span(part), is_listed) for part in ("hash", "include", "header") if match.group(part))
    return found


def with_semicolons(text: str, found: list[tuple[Token, bool]]) -> Iterator[Token]:
    """The tokens of Go that are listed, with the semicolons that line ends insert."""
    for position, ((start, end), is_listed) in enumerate(found):
        if is_listed:
            yield start, end
            following = found[position + 1][0][0] if position + 1 < len(found) else len(text)
            is_line_end = following == len(text) or text.find("\n", end, following) >= 0
            spelling = text[start:end]
            if is_line_end and GO_LAST.match(spelling) and spelling not in GO_KEYWORDS:
                yield end, end


def unspliced(text: str) -> list[Token]:
    """The tokens of C with backslashes before line ends taken out, at their places in the text as it is written."""
    kept_until: list[int] = []
    removed: list[int] = []
    total = 0
    for match in SPLICE.finditer(text):
        kept_until.append(match.start() - total)
        total += len(match.group())
        removed.append(total)

    def place(at: int, is_end: bool) -> int:
        passed = (bisect.bisect_left if is_end else bisect.bisect_right)(kept_until, at)
        return at + (removed[passed - 1] if passed else 0)

    found = all_tokens(C.finditer(SPLICE.sub("", text)))
    return [(place(start, False), place(end, True)) for (start, end), is_listed in found if is_listed]
