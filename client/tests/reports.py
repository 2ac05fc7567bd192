"""Reports for the tests of formats and page: hostile ones, large ones, and those of real sources."""
from __future__ import annotations

import json
import random
import subprocess
from pathlib import Path
from typing import Any

from cqd_client.findings import About, Condition, File, Function, Group, Measures, Place, Report, Skipped, report_of
from cqd_client.tokens import tokens_of

FIRST = "int before;\n\nint sum(int n) {\n    int s = 0; // adds 𝒳 up\n    for (int i = 0; i < n; i++)\n        s += i;\n    return s;\n}\n"
SECOND = "/* other */ char *name = \"]]>\";\nint sum(int n) { int s = 0;\n  for (int i = 0; i < n; i++) s += i;\n  return s; }\nint after;\n"

HOSTILE = ("a/<script>alert(1)</script>.c", "a/\"'&|`]]>{{7*7}}</td>\u202ecod.c", "=HYPERLINK(1).c", "ü/𝒳 %41.c", "@x/`b``c`.c")

ABOUT = About("0123456789abcdef", "a<b>", "2026-11-30T11:42:07Z", "cqd 1.2.3 <b>", (("--min", "<20>"), ("--ignore-ids", "")))


def report_with(texts: dict[str, str], groups: tuple[Group, ...], **more: Any) -> Report:
    files = tuple(File(path, "c", text.count("\n"), len(tokens_of(text, "c"))) for path, text in texts.items())
    return Report("shop", 7, groups, len(groups), files=files, text_of=texts.get, **more)


def run_in(text: str, path: str, first: str = "int sum", last: str = "}") -> tuple[int, Place]:
    """The number of tokens from one spelling to another, and their place."""
    tokens = tokens_of(text, "c")
    start, end = text.index(first), text.index(last) + len(last)
    inside = [number for number, token in enumerate(tokens) if start <= token[0] < end]
    return len(inside), Place(path, inside[0], text.count("\n", 0, start) + 1, text.count("\n", 0, end) + 1)


def two_places(first: str = FIRST, second: str = SECOND, paths: tuple[str, str] = ("src/a.c", "src/b.c")) -> Report:
    """A report of one group, whose runs are laid out differently."""
    tokens, one = run_in(first, paths[0])
    count, other = run_in(second, paths[1])
    assert tokens == count
    return report_with({paths[0]: first, paths[1]: second}, (Group(tokens, (one, other)),), about=ABOUT)


def hostile() -> Report:
    """Names and texts that mean something to HTML, XML, Markdown, spreadsheets and terminals."""
    text = FIRST + "char *a = \"</script><img src=x onerror=hacked=1>\"; // ]]> \x1b[31m \u202e <b> &amp; {{7*7}}\n"
    tokens, place = run_in(text, HOSTILE[0], last="&amp; {{7*7}}")
    places = tuple(Place(path, place.at, place.first, place.last) for path in HOSTILE)
    gate = (Condition("duplicated_lines_density", "GT", 300, 1234, True), Condition("<i>", "LT", 3, 4, False))
    return report_with({path: text for path in HOSTILE}, (Group(tokens, places),), verdict="ERROR", conditions=gate,
                       measures=Measures(9, 5, 5, 30, 1234, 5, 50, 40), about=ABOUT, raw=b'{"ok":true}\n',
                       skipped=(Skipped("<u>.c", "it is not UTF-8 </li>"),),
                       functions=tuple(Function(path, "<s>`f`", 3, 8, 1_234_567 - number, number == 0)
                                       for number, path in enumerate(HOSTILE)))


def large(groups: int, files: int = 60) -> Report:
    """A report of many groups of 30 lines in many folders, with its texts."""
    chance = random.Random(1)
    line = "    total_{0} = total_{0} + values[index_{0}] * factor; /* step {0} */\n"
    texts = {f"src/part{number % 23}/deep{number % 7}/file{number}.c": "".join(line.format(row % 61) for row in range(900))
             for number in range(files)}
    paths = sorted(texts)
    tokens = len(tokens_of(line, "c"))
    found = []
    for number in range(groups):
        lines = 20 + number % 40
        starts = [chance.randrange(1, 800) for _ in range(2 + number % 3)]
        found.append(Group(lines * tokens, tuple(Place(chance.choice(paths), (start - 1) * tokens, start, start + lines - 1)
                                                 for start in starts)))
    held = tuple(File(path, "c", 900, 900 * tokens) for path in paths)
    return Report("shop", 7, tuple(found), groups, files=held, text_of=texts.get, measures=Measures(900, 12_345, files, 12_345, 2_286, files, files * 900, files * 900),
                       verdict="OK", conditions=(Condition("complexity", "GT", 1_000, 900, False),), about=ABOUT)


def real(program: str, folder: Path, files: list[Path], least: int = 50) -> Report:
    """What the program says of these C files."""
    texts = {str(file.relative_to(folder)): file.read_text(encoding="utf-8") for file in files}
    requests: list[dict[str, Any]] = [{"op": "put", "project": "real", "path": path, "lang": "c", "text": text}
                                      for path, text in texts.items()]
    requests.append({"op": "gate", "project": "real",
                     "conditions": [{"metric": "duplicated_lines_density", "op": "GT", "error": 1}]})
    requests += [{"op": op, "project": "real", "min": least} for op in ("groups", "measures", "verdict")]
    requests.append({"op": "files", "project": "real"})
    lines = "".join(json.dumps(request) + "\n" for request in requests)
    ran = subprocess.run([program, "run", "--chunk", "20", "--text-limit", "67108864"], input=lines.encode("utf-8"),
                         stdout=subprocess.PIPE, check=True)
    replies = ran.stdout.split(b"\n")[len(texts) + 1:]
    groups, measures, verdict, held = (json.loads(line) for line in replies[:4])
    return report_of("real", groups=groups, measures=measures, verdict=verdict, files=held, raw=replies[0], text_of=texts.get,
                     conditions=(Condition("duplicated_lines_density", "GT", 1),), about=ABOUT)
