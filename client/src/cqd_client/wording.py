"""How numbers, metrics and names are put in words for people."""
from __future__ import annotations

import unicodedata

from .findings import DENSITY, Condition, Function, Group, Place, Report

LABELS = {
    "complexity": "Complexity", "duplicated_blocks": "Duplicated blocks", "duplicated_files": "Files with duplicates",
    "duplicated_lines": "Duplicated lines", DENSITY: "Duplicated lines density", "files": "Files", "lines": "Lines",
    "ncloc": "Lines of code", "groups": "Duplicates", "functions": "Complex functions",
}


def shown(text: str) -> str:
    """The text, with every character escaped that has no shape of its own or reorders those beside it."""
    if text.replace("\t", " ").isprintable():
        return text
    return "".join(escaped(character) if is_hidden(character) else character for character in text)


def escaped(character: str) -> str:
    """The character as an escape of Python. A byte of a name that isn't UTF-8 is a surrogate for Python, and shown as the byte."""
    if "\udc80" <= character <= "\udcff":
        return f"\\x{ord(character) - 0xDC00:02x}"
    return character.encode("unicode_escape").decode("ascii")


def is_hidden(character: str) -> bool:
    return character != "\t" and unicodedata.category(character) in ("Cc", "Cf", "Co", "Cs", "Zl", "Zp")


def counted(count: int, noun: str, plural: str = "") -> str:
    return f"{count:,} {noun if count == 1 else plural or noun + 's'}"


def percent(hundredths: int) -> str:
    return f"{hundredths // 100:,}.{hundredths % 100:02}%"


def value_text(metric: str, value: int) -> str:
    return percent(value) if metric == DENSITY else f"{value:,}"


def label(metric: str) -> str:
    return LABELS.get(metric, shown(metric))


def location(place: Place) -> str:
    return f"{shown(place.path)}:{place.first}"


def extent(place: Place) -> str:
    """The lines of a place, as `12` or `12-40`."""
    return str(place.first) if place.first == place.last else f"{place.first}-{place.last}"


def others(group: Group, place: Place, most: int = 0) -> str:
    """The locations of the group's other places, or of the first `most` of them and how many there are beyond."""
    found = [location(other) for other in group.places if other is not place]
    if most and len(found) > most:
        return ", ".join(found[:most]) + f" and {counted(len(found) - most, 'more place')}"
    return ", ".join(found)


def duplicate_message(group: Group, place: Place, most: int = 0) -> str:
    return f"{counted(group.tokens, 'token')}, also at {others(group, place, most)}"


def function_message(function: Function) -> str:
    return f"complexity {function.complexity:,} of {shown(function.name)}"


def left_out(report: Report) -> str:
    """Why the verdict is unknown."""
    if not report.skipped:
        return "files are missing"
    return f"{counted(len(report.skipped), 'file')} left out, the first is {shown(report.skipped[0].path)}"


def requirement(condition: Condition) -> str:
    """What has to hold, as `Duplicated lines density at most 3.00%`."""
    if not condition.op:
        return label(condition.metric)
    bound = value_text(condition.metric, condition.bound)
    return f"{label(condition.metric)} at {'most' if condition.op == 'GT' else 'least'} {bound}"


def violation(condition: Condition) -> str:
    """Why the condition failed, as `Duplicated lines density is 5.36%, more than 3.00%`."""
    if not condition.op:
        return f"{label(condition.metric)} failed"
    bound = value_text(condition.metric, condition.bound)
    limit = f"{'more' if condition.op == 'GT' else 'less'} than {bound}"
    if condition.value is None:
        return f"{label(condition.metric)} is {limit}"
    return f"{label(condition.metric)} is {value_text(condition.metric, condition.value)}, {limit}"
