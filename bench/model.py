"""The replies of a server, computed in the simplest way from small texts of words.

A text is words separated by blanks or line feeds, each a token in any language, except that `#` is a fault of Java, JavaScript and
TypeScript. Replies are computed from all pairs of places, by what docs/PROTOCOL.md says of them; nothing here has an index.
"""
from __future__ import annotations

import itertools
import json
from typing import NamedTuple

DECISIONS = {"any": (), **dict.fromkeys(("c", "java", "js", "ts"), ("if", "for", "while"))}
FAULTY = ("java", "js", "ts")
NAMES = ["complexity", "duplicated_blocks", "duplicated_files", "duplicated_lines", "duplicated_lines_density", "files", "lines",
         "ncloc"]


class File(NamedTuple):
    path: str
    change: int
    lang: str
    text: str


class Change(NamedTuple):
    """A put of a text, a drop, whose text is None, or a gate, which has conditions."""
    project: str
    path: str | None
    lang: str | None = None
    text: str | None = None
    conditions: list | None = None

    @property
    def is_drop(self):
        return self.text is None and self.conditions is None


def refusal(code, error, **more):
    return {"code": code, "error": error, "ok": False, **more}


def line_of(reply):
    """The line of a reply, without its line feed."""
    return json.dumps(reply, sort_keys=True, separators=(",", ":"))


class History:
    """The changes of some projects by their numbers; there may be others between them."""

    def __init__(self, changes=()):
        self.changes, self.listed = {}, {}
        for number, change in changes:
            self.add(number, change)

    def add(self, number, change):
        self.changes.setdefault(change.project, []).append((number, change))

    def files(self, project, version):
        """The files of a project at a version, in the order of their paths."""
        upto = sum(number <= version for number, _ in self.changes.get(project, []))
        if (project, upto) not in self.listed:
            files = {}
            for number, change in self.changes.get(project, [])[:upto]:
                if change.conditions is None:
                    files.pop(change.path, None)
                    if change.text is not None:
                        files[change.path] = File(change.path, number, change.lang, change.text)
            self.listed[project, upto] = tuple(files[path] for path in sorted(files, key=str.encode))
        return self.listed[project, upto]

    def conditions(self, project, version):
        gates = [it.conditions for number, it in self.changes.get(project, []) if number <= version and it.conditions is not None]
        return gates[-1] if gates else []

    def has(self, project, version, path):
        return any(it.path == path for it in self.files(project, version))

    def reply(self, query, version):
        """The reply to a query at a version."""
        files = self.files(query["project"], version)
        if query["op"] == "files":
            return {"files": [listed(it) for it in files], "ok": True, "version": version}
        if query["op"] == "functions":
            # Words alone make no function.
            return {"functions": [], "ok": True, "version": version, "worst": None}
        least = query.get("min", 100)
        if query["op"] == "groups":
            found = [it for it in groups(files, least) if "path" not in query or query["path"] in paths(it)]
            return {"groups": found, "ok": True, "total": len(found), "version": version}
        told = measures(files, least, {it.path for it in files if is_chosen(query, it)})
        if query["op"] == "measures":
            return {"measures": told, "ok": True, "version": version}
        conditions = enumerate(self.conditions(query["project"], version))
        failed = [at for at, it in conditions if is_met(told[it["metric"]], it)]
        return {"failed": failed, "ok": True, "verdict": "ERROR" if failed else "OK", "version": version}


class PlainServer:
    """A server without workers, whose clients come one after the other."""

    def __init__(self, change_limit=262_144, text_limit=33_554_432):
        self.change_limit, self.text_limit = change_limit, text_limit
        self.history, self.changes = History(), []
        # How many changes are analysed, the version of the last answer, and the last change of this session. A version that was reported
        # in it is no later than the last answer.
        self.analysed = self.published = self.latest = 0

    def begin_session(self):
        self.latest = 0

    def reply(self, request):
        """The reply to a valid request."""
        if request["op"] == "state":
            return {"accepted": len(self.changes), "done": self.done(), "ok": True, "published": self.published}
        return self.accept(change_of(request)) if request["op"] in ("put", "drop", "gate") else self.answer(request)

    def done(self):
        """The greatest number up to which all changes are done; drops and gates are done at once."""
        for number, change in enumerate(self.changes, 1):
            if number > self.analysed and change.text is not None:
                return number - 1
        return len(self.changes)

    def kept(self):
        """The changes that the version of the last answer needs, or a later one."""
        last = {(it.project, it.path): number for number, it in enumerate(self.changes[:self.published], 1)}
        return [it for number, it in enumerate(self.changes, 1)
                if number > self.published or number == last[it.project, it.path] and not it.is_drop]

    def accept(self, change):
        if change.is_drop and not self.history.has(change.project, len(self.changes), change.path):
            return refusal(9, "absent")
        kept = self.kept()
        if len(kept) >= self.change_limit:
            return refusal(10, "full-changes")
        if change.text is not None and size(change) + sum(size(it) for it in kept) > self.text_limit:
            return refusal(11, "full-text")
        self.changes.append(change)
        self.latest = len(self.changes)
        self.history.add(self.latest, change)
        return {"change": self.latest, "ok": True}

    def answer(self, query):
        """The reply to a query. One that analyses nothing publishes only what it has to, unless all is done."""
        at, accepted = query.get("at", 0), len(self.changes)
        if at > accepted:
            return refusal(8, "future", count=accepted)
        if query.get("finish", True):
            self.analysed = accepted
        done, least = self.done(), max(self.latest, at)
        if done < least:
            return refusal(12, "pending", number=done + 1)
        self.published = max(self.published, done if done == accepted else least)
        return self.history.reply(query, self.published)


def change_of(request):
    return Change(request["project"], request.get("path"), request.get("lang"), request.get("text"), request.get("conditions"))


def size(change):
    """The bytes of a change's text."""
    return len((change.text or "").encode())


def is_chosen(query, file):
    """Whether a file's measures are asked for: it is at the path, fits the scope, and was uploaded after `since`."""
    return query.get("path") in (None, file.path) and file.change > query.get("since", 0) and (
        "scope" not in query or fits(query["scope"], file.path))


def fits(pattern, path):
    """Whether a path fits a pattern, part by part, and a part of it a part of that, character by character."""
    def part_fits(part, name):
        return follows(part, name, lambda symbol: symbol == "*", lambda symbol, c: symbol in ("?", c))
    return follows(pattern.split("/"), path.split("/"), lambda part: part == "**", part_fits)


def follows(wanted, given, is_star, is_one):
    """Whether a list matches what is wanted: a star matches any number of its elements, anything else one."""
    if not wanted:
        return not given
    if is_star(wanted[0]):
        return any(follows(wanted[1:], given[at:], is_star, is_one) for at in range(len(given) + 1))
    return bool(given) and is_one(wanted[0], given[0]) and follows(wanted[1:], given[1:], is_star, is_one)


def is_met(measure, condition):
    return measure > condition["error"] if condition["op"] == "GT" else measure < condition["error"]


def paths(group):
    return [it["path"] for it in group["places"]]


def lines(text):
    return text.count("\n") + (text != "" and not text.endswith("\n"))


def fault(file):
    """The byte of the first `#`, if that is a fault of the language."""
    return file.text.encode().index(b"#") if file.lang in FAULTY and "#" in file.text else None


def tokens(file):
    """The words of a text, each with its language, and the line of each, from 1; a file with a fault has none."""
    if fault(file) is not None:
        return [], []
    told = [((file.lang, word), number) for number, line in enumerate(file.text.split("\n"), 1) for word in line.split()]
    return [it for it, _ in told], [number for _, number in told]


def listed(file):
    at = fault(file)
    row = {"change": file.change, "lang": file.lang, "lines": lines(file.text), "path": file.path,
           "state": "ok" if at is None else "fault", "tokens": len(tokens(file)[0])}
    return row if at is None else {"at": at, **row}


def common(one, at, two, there):
    """How many tokens are the same from these places on."""
    size = 0
    while at + size < len(one) and there + size < len(two) and one[at + size] == two[there + size]:
        size += 1
    return size


def words_at(texts, least):
    """Each word that can't be made longer at some two places, with all its places."""
    spots = {}
    for file, text in enumerate(texts):
        for at, token in enumerate(text):
            spots.setdefault(token, []).append((file, at))
    found = set()
    for places in spots.values():
        for (i, at), (j, there) in itertools.combinations(places, 2):
            if not (at and there and texts[i][at - 1] == texts[j][there - 1]):
                size = common(texts[i], at, texts[j], there)
                if size >= least:
                    found.add(tuple(texts[i][at:at + size]))
    return {word: [(i, at) for i, at in spots[word[0]] if tuple(texts[i][at:at + len(word)]) == word] for word in found}


def kept(places, size):
    """Of each file the places that begin after the end of the last one that was kept there."""
    ends, told = {}, []
    for file, at in places:
        if at >= ends.get(file, 0):
            ends[file] = at + size
            told.append((file, at))
    return told


def groups(files, least):
    read = [tokens(it) for it in files]
    found = []
    for word, places in words_at([it for it, _ in read], least).items():
        told = kept(places, len(word))
        if len(told) > 1:
            found.append((*told[0], -len(word), told))
    return [{"places": [place(files[i].path, read[i][1], at, -size) for i, at in told], "tokens": -size}
            for _, _, size, told in sorted(found)]


def place(path, numbers, at, size):
    return {"at": at, "first": numbers[at], "last": numbers[at + size - 1], "path": path}


def measures(files, least, chosen):
    """The measures of the files at the chosen paths, with the groups of all."""
    blocks = {(it["path"], it["first"], it["last"]) for group in groups(files, least) for it in group["places"]}
    blocks = {it for it in blocks if it[0] in chosen}
    counted = [it for it in files if it.path in chosen]
    covered = {(file, line) for file, first, last in blocks for line in range(first, last + 1)}
    total = sum(lines(it.text) for it in counted)
    decided = sum(1 + sum(word in DECISIONS[it.lang] for _, word in tokens(it)[0]) for it in counted if fault(it) is None)
    filled = sum(len(set(tokens(it)[1])) for it in counted)
    told = [decided, len(blocks), len({it[0] for it in blocks}), len(covered), len(covered) * 10_000 // total if total else 0,
            len(counted), total, filled]
    return dict(zip(NAMES, told))
