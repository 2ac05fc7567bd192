#!/usr/bin/env python3
"""Compares the functions that ./cqd finds in the sources of a folder with those that another parser finds.

usage: bench/functions.py LANG FOLDER [--files N] [--show N]

LANG is java, go, c, js or ts. At most N (1,000) files of the language in FOLDER are taken, spread evenly. The other parser is javac of the JDK, by its
tree API, for Java; go/parser for Go; Universal Ctags for C; the acorn in node for JavaScript; and TypeScript's compiler for TypeScript, see
functions_ts.js. Besides functions it reports what docs/LANGUAGES.md does not count as one: lambdas, initialisers, function literals, and
declarations without a body.

Two functions are equal if their name, the line of the name and the last line of the body are. Printed are how many files were compared, and
how many functions there are by kind: equal ones, those with another last line or another name, and those that only one of the two has. The
kind is what the parser reports; if only one has a function of C, it is derived from the tokens around the name. With --show up to N of each
unequal kind follow, spread evenly: the name, and the first and last line by the parser and by cqd. Files that cannot be uploaded, that have
no tokens, or that the parser refuses are named on standard error and skipped.

The program is ./cqd, or what the variable CQD names. `java`, `go`, `ctags` or `node` must be in PATH; go is also looked for where Debian has it.
"""
import argparse
import collections
import functools
import itertools
import json
import os
import re
import shutil
import subprocess
import sys
from pathlib import Path
from typing import NamedTuple

ROOT = Path(__file__).resolve().parent.parent
sys.path.insert(0, str(ROOT / "client" / "src"))
from cqd_client.upload import folder_puts  # noqa: E402

SERVER = [os.environ.get("CQD", ROOT / "cqd"), "run", "--text-limit", "67108864"]
MOST_TEXT = 33_554_432

JAVAC = ["--add-exports", "jdk.compiler/com.sun.tools.javac.tree=ALL-UNNAMED", "--add-exports", "jdk.compiler/com.sun.tools.javac.code=ALL-UNNAMED"]
CTAGS = ["ctags", "--options=NONE", "--language-force=C", "--kinds-C=f", "--fields=+ne", "--output-format=json", "--sort=no", "-f", "-", "-L", "-"]


def told_by(command, paths):
    return subprocess.run(command, input="".join(f"{path}\n" for path in paths), capture_output=True, text=True, check=True).stdout


def rows_of(text):
    """The rows of a parser, whose fields are separated by tabs: the file, the kind, the name, and two lines."""
    for line in text.splitlines():
        path, kind, *rest = line.split("\t")
        yield path, kind, *((rest[0], int(rest[1]), int(rest[2])) if rest else ("", 0, 0))


def java_rows(paths):
    return rows_of(told_by(["java", *JAVAC, str(ROOT / "bench" / "functions.java")], paths))


def go_rows(paths):
    go = shutil.which("go") or max(map(str, Path("/usr/lib").glob("go-*/bin/go")), default="go")
    return rows_of(told_by([go, "run", str(ROOT / "bench" / "functions.go")], paths))


def c_rows(paths):
    for line in told_by(CTAGS, paths).splitlines():
        tag = json.loads(line)
        yield tag["path"], "function", tag["name"], tag["line"], tag.get("end", 0)


def js_rows(paths):
    return (row for row in rows_of(told_by(["node", "--expose-internals", str(ROOT / "bench" / "functions.js")], paths)) if row[1] != "none")


def ts_rows(paths):
    return (row for row in rows_of(told_by(["node", str(ROOT / "bench" / "functions_ts.js")], paths)) if row[1] != "none")


PEERS = {"java": java_rows, "go": go_rows, "c": c_rows, "js": js_rows, "ts": ts_rows}


def chosen(lang, folder, most):
    """The puts of at most so many files, in even distances."""
    all_ = [put for put in folder_puts(folder, "p") if put["lang"] == lang]
    count = min(most, len(all_))
    return [all_[i * len(all_) // count] for i in range(count)]


def batches(puts):
    """The files in runs whose texts together are within what a server holds."""
    batch, size = [], 0
    for put in puts:
        length = len(put["text"].encode())
        if batch and size + length > MOST_TEXT:
            yield batch
            batch, size = [], 0
        batch.append(put)
        size += length
    yield batch


def asked(batch):
    """The functions of each file that has tokens, by cqd."""
    requests = [*batch, {"op": "files", "project": "p"}, *({"op": "functions", "project": "p", "path": put["path"]} for put in batch)]
    data = "".join(json.dumps(request, ensure_ascii=False) + "\n" for request in requests).encode()
    lines = subprocess.run([*map(str, SERVER)], input=data, stdout=subprocess.PIPE, check=True).stdout.splitlines()
    replies = [json.loads(line) for line in lines]
    if not all(reply["ok"] for reply in replies):
        sys.exit(f"cqd: {next(reply for reply in replies if not reply['ok'])}")
    states = {row["path"]: row["state"] for row in replies[len(batch)]["files"]}
    for put, reply in zip(batch, replies[len(batch) + 1:]):
        if states[put["path"]] == "ok":
            yield put["path"], [(row["name"], row["first"], row["last"]) for row in reply["functions"]]
        else:
            print(f"left out, {states[put['path']]}: {put['path']}", file=sys.stderr)


class Compared:
    """What both have, and what only one does: for each title rows of a file, a kind, and a name and two lines, by either."""

    def __init__(self):
        self.files, self.here = 0, 0
        self.rows = {"equal": [], "with another last line": [], "with another name": [], "only there": [], "only here": []}

    def keep(self, title, *row):
        self.rows[title].append(row)

    def add(self, path, found, told, why):
        """What cqd found in a file, and what the parser told of it, as kinds with functions."""
        self.files += 1
        self.here += len(found)
        told = self.paired("equal", path, found, told, lambda one: one)
        told = self.paired("with another last line", path, found, told, lambda one: one[:2])
        told = self.paired("with another name", path, found, told, lambda one: one[2])
        for kind, *one in told:
            self.keep("only there", path, why.there(kind, *one), *one)
        for one in found:
            self.keep("only here", path, why.here(*one), *one)

    def paired(self, title, path, found, told, part):
        """Those of the parser that no function of cqd is alike in this part. The others are kept, and taken from both."""
        by_part = collections.defaultdict(list)
        for one in found:
            by_part[part(one)].append(one)
        rest = []
        for kind, *one in told:
            alike = by_part[part(tuple(one))]
            if alike and (title == "equal" or kind in NAMED):
                mine = alike.pop(0)
                found.remove(mine)
                self.keep(title, path, kind, *one, *(() if title == "equal" else mine))
            else:
                rest.append((kind, *one))
        return rest


NAMED = {"function", "method", "constructor", "arrow function", "function as a value"}


class Plain:
    """Only the kind that the parser reports."""

    def __init__(self, _):
        pass

    def there(self, kind, *_):
        return kind

    def here(self, *_):
        return "function"


TOKEN = re.compile(r"""/\*.*?\*/|//(?:\\\n|[^\n])*|"(?:\\.|[^"\\\n])*"|'(?:\\.|[^'\\\n])*'|[A-Za-z_$][\w$]*|\\\n|.""", re.S)


class Token(NamedTuple):
    """A token of C, the directive that it belongs to, whether it is in a branch of #if that ctags passes over, and the braces
    that are open before it: their places, and how many are opened more than closed."""
    text: str
    line: int
    directive: str
    is_passed: bool
    open: tuple
    level: int


def entered(branches, words):
    """The branches of #if that are open after a directive, each whether ctags passes over it."""
    if words[0] in ("elif", "else", "endif"):
        branches = branches[:-1]
    if words[0] in ("elif", "else"):
        return [*branches, True]
    return [*branches, words == ["if", "0"]] if words[0] in ("if", "ifdef", "ifndef") else branches


def tokens_of(text):
    """The tokens of a text of C, without blanks and comments."""
    line, directive, is_first, branches, open_, level, many = 1, [], True, [], (), 0, 0
    for token in TOKEN.findall(text):
        if token == "\n":
            branches = entered(branches, directive[1:]) if len(directive) > 1 else branches
            directive, is_first = [], True
        elif not token.isspace() and not token.startswith(("/*", "//", "\\\n")):
            if directive or is_first and token == "#":
                directive.append(token)
            is_first = False
            yield Token(token, line, "".join(directive[1:2]), any(branches), open_, level)
            if token in "{}":
                open_ = (*open_, many) if token == "{" else open_[:-1]
                level += 1 if token == "{" else -1
            many += 1
        line += token.count("\n")


class OfC:
    """What is special about a function of C that only one of the two has, as far as the tokens around it show."""

    def __init__(self, text):
        self.source = text

    @functools.cached_property
    def tokens(self):
        return list(tokens_of(self.source))

    def text(self, at):
        return self.tokens[at].text if 0 <= at < len(self.tokens) else ""

    def place(self, name, line):
        places = [at for at, token in enumerate(self.tokens) if token.line == line and token.text == name.lstrip("~")]
        return next((at for at in places if self.text(at + 1) == "("), places[0] if places else None)

    def behind_parameters(self, at):
        level = 0
        for at in range(at + 1, len(self.tokens)):
            level += (self.text(at) == "(") - (self.text(at) == ")")
            if level == 0:
                break
        return [token.text for token in self.tokens[at + 1:]]

    def around(self, token):
        """Where braces are open before a token."""
        before = [self.text(token.open[0] - back) for back in range(1, 8)] if token.open else []
        if '"C"' in before[:1]:
            return 'inside extern "C"'
        return "inside a class of C++" if "class" in before else "after uneven braces"

    def there(self, kind, name, first, _):
        at = self.place(name, first)
        if at is None:
            return kind
        if self.tokens[at].level:
            return f"{kind} {self.around(self.tokens[at])}"
        behind = self.behind_parameters(at)
        if behind[:1] == ["{"]:
            return f"{kind} with uneven braces"
        if behind[:1] == [")"]:
            return f"{kind} whose result is a pointer to a function"
        if ";" in itertools.takewhile(lambda text: text != "{", behind):
            return f"{kind} with parameters in the old style"
        return f"{kind} with something between parameters and body"

    def here(self, name, first, _):
        at = self.place(name, first)
        if self.tokens[at].directive == "define":
            return "macro that is a block" if self.text(at - 1) == "define" else "function in a macro"
        return "function in a branch of #if that is passed over" if self.tokens[at].is_passed else "function"


WHY = {"java": Plain, "go": Plain, "c": OfC, "js": Plain, "ts": Plain}


def tell(compared, most):
    print(f"{compared.files:,} files, {compared.here:,} functions by cqd, {len(compared.rows['equal']):,} equal ones")
    for title, rows in compared.rows.items():
        for kind, count in sorted(collections.Counter(row[1] for row in rows).items()):
            print(f"  {kind}: {count:,} {title}")
            some = [row for row in rows if row[1] == kind] if title != "equal" else []
            for i in range(min(most, len(some))):
                path, _, *fields = some[i * len(some) // min(most, len(some))]
                print(f"    {path}: {' '.join(map(str, fields))}")


def main():
    words = argparse.ArgumentParser(description=__doc__, formatter_class=argparse.RawDescriptionHelpFormatter)
    words.add_argument("lang", choices=sorted(PEERS))
    words.add_argument("folder", type=Path)
    words.add_argument("--files", type=int, default=1_000)
    words.add_argument("--show", type=int, default=0)
    asked_for = words.parse_args()
    some = chosen(asked_for.lang, asked_for.folder, asked_for.files)
    here = {path: found for batch in batches(some) for path, found in asked(batch)}
    root = asked_for.folder.resolve()
    texts = {put["path"]: put["text"] for put in some}
    there = {path: [] for path in here}
    for path, kind, *one in PEERS[asked_for.lang]([str(root / path) for path in here]):
        there[os.path.relpath(path, root)].append((kind, *one))
    compared = Compared()
    for path, told in sorted(there.items()):
        if any(kind == "fault" for kind, *_ in told):
            print(f"skipped, refused by the parser: {path}", file=sys.stderr)
        else:
            compared.add(path, here[path], told, WHY[asked_for.lang](texts[path]))
    tell(compared, asked_for.show)


if __name__ == "__main__":
    main()
