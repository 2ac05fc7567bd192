"""The XML report of PMD's CPD, which Jenkins' Warnings plugin and other tools read."""
from __future__ import annotations

import re
from typing import TextIO
from xml.sax.saxutils import quoteattr

from ..findings import Group, Place, Report
from ..runs import Sources

# XML 1.0 has no way to write these characters.
NOT_XML = re.compile("[^\t\n\r\x20-\ud7ff\ue000-\ufffd\U00010000-\U0010ffff]")


def attribute(text: str) -> str:
    return quoteattr(NOT_XML.sub("\ufffd", text))


def fragment(text: str) -> str:
    return "<![CDATA[" + NOT_XML.sub("\ufffd", text).replace("]]>", "]]]]><![CDATA[>") + "]]>"


def file_element(sources: Sources, group: Group, place: Place) -> str:
    run = sources.run(group, place)
    columns = f' column="{run.first_column + 1}" endcolumn="{run.end_column + 1}"' if run else ""
    return f'<file path={attribute(place.path)} line="{place.first}" endline="{place.last}"{columns}/>'


def write(report: Report, out: TextIO) -> None:
    """A duplication for each group, with the lines of its first place if they are known."""
    sources = Sources(report)
    out.write('<?xml version="1.0" encoding="UTF-8"?>\n<pmd-cpd>\n')
    for group in report.groups:
        out.write(f'<duplication lines="{group.lines}" tokens="{group.tokens}">\n')
        for place in group.places:
            out.write(file_element(sources, group, place) + "\n")
        first = group.places[0]
        source = sources.source(first.path)
        if source:
            out.write(f"<codefragment>{fragment(chr(10).join(source.lines(first.first, first.last)))}</codefragment>\n")
        out.write("</duplication>\n")
    out.write("</pmd-cpd>\n")
