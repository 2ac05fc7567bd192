#!/usr/bin/env python3
"""Scripts for `cqd drive` that are drawn at random, each step with its outcome, which a plain model finds.

usage: bench/scripts.py [SEED..] > FILE.cases

Prints for each seed (30, 70 and 110 if none is given) a script of about 300 steps in the form that cases/run reads, and on standard
error how often each outcome comes. cases/drawn_scripts.cases was drawn in this way. The model rests on docs/PROTOCOL.md and has no shards:
what is read of one is computed from the files, and so is each reply (`model.py`).
"""
import collections
import json
import sys

from model import NAMES, Change, History, tokens

PATHS = ["a.txt", "src/a.java", "src/b"]
SCOPES = ["**", "src/**", "*.txt", "s*/?", "**/a.*", "src/b/**"]
CHUNK, SHARDS, CHANGES, BYTES = 2, 2, 32, 200
WORD = (1 << 64) - 1
JSON, OP = {"code": 1, "error": "json", "ok": False}, {"code": 2, "error": "op", "ok": False}


def field(name):
    return {"code": 3, "error": "field", "name": name, "ok": False}


# Lines that are no steps, and steps whose request is refused.
REFUSED = [
    ("", JSON),
    ('["ask",0]', JSON),
    ('{"by":0}', OP),
    ('{"step":"fly","by":0}', OP),
    ('{"step":"ask","by":16}', field("by")),
    ('{"step":"back","by":0}', field("change")),
    ('{"step":"apply","shard":2}', field("shard")),
    ('{"step":"shut","by":0,"at":1}', field("at")),
    ('{"step":"accept","by":0,"request":{"op":"files","project":"p"}}', field("request")),
    ('{"step":"reply","by":0,"request":{"op":"state"}}', field("request")),
    ('{"step":"reply","by":0,"request":{"op":"files"}}', field("project")),
    ('{"step":"accept","by":0,"request":{"op":"put","project":"p","path":"a","lang":"cobol","text":""}}',
     {"code": 4, "error": "lang", "ok": False}),
    ('{"step":"accept","by":0,"request":{"op":"drop","project":"p","path":"a/../b"}}', {"code": 5, "error": "path", "ok": False}),
    ('{"step":"reply","by":0,"request":{"op":"groups","project":"p","min":1}}', {"code": 7, "error": "min", "ok": False}),
    ('{"step":"reply","by":0,"request":{"op":"verdict","project":"p","scope":"a//b"}}', {"code": 15, "error": "scope", "ok": False}),
]
LONG_TEXT = '{"step":"accept","by":0,"request":{"op":"put","project":"p","path":"a","lang":"any","text":"⟨ ×1048577⟩"}}'
LONG_LINE = '{"step":"ask","by":0}⟨ ×8388608⟩'


class Draws:
    """Numbers that look random and are the same at each run: a linear congruence modulo 2^64."""

    def __init__(self, seed):
        self.state = seed

    def below(self, n):
        self.state = (self.state * 6_364_136_223_846_793_005 + 1_442_695_040_888_963_407) & WORD
        return (self.state >> 32) % n

    def of(self, things):
        return things[self.below(len(things))]


def folded(codes):
    key = 0
    for code in codes:
        key = (key * 6_364_136_223_846_793_005 + code + 1) & WORD
    return key


def code_of(lang, word):
    """The code of a token: of its language, its class and its bytes."""
    kind = 3 if word == "#" else int((lang, word) == ("java", "if"))
    return folded([{"any": 0, "java": 3}[lang], kind, *word.encode()])


class Script:
    """What was accepted, done, taken, applied, opened and given up. Each step is a method of its name, which returns its outcome."""

    def __init__(self, key_bits):
        self.mask = (1 << key_bits) - 1
        self.history, self.changes = History(), []
        self.finished, self.taken, self.applied = set(), [], [0] * SHARDS
        self.published, self.given_up, self.views = 0, 0, {}

    def is_undone(self, number):
        return 0 < number <= len(self.changes) and self.changes[number - 1]["op"] == "put" and number not in self.finished

    def undone(self):
        return [number for number in range(1, len(self.changes) + 1) if self.is_undone(number)]

    def ready(self):
        """The greatest number up to which all changes are done."""
        return min(self.undone(), default=len(self.changes) + 1) - 1

    def least_seen(self):
        return min([self.published, *self.views.values()])

    def is_kept(self, number):
        """Whether a version that is not given up may need this change."""
        change = self.changes[number - 1]
        if number > self.given_up:
            return True
        if change["op"] == "drop":
            return False
        return not any(it["project"] == change["project"] and it.get("path") == change.get("path")
                       for it in self.changes[number:self.given_up])

    def windows(self, version):
        """The windows of all files at a version, by change and place, each with its key."""
        files = [it for project in ("p", "q.2") for it in self.history.files(project, version)]
        found = []
        for file in sorted(files, key=lambda it: it.change):
            codes = [code_of(*token) for token in tokens(file)[0]]
            found += [(file.change, at, folded(codes[at:at + CHUNK]) & self.mask) for at in range(len(codes) - CHUNK + 1)]
        return found

    def accept(self, by, request):
        project, path = request["project"], request.get("path")
        if request["op"] == "drop" and not self.history.has(project, len(self.changes), path):
            return {"code": 9, "error": "absent", "ok": False}
        kept = [it for number, it in enumerate(self.changes, 1) if self.is_kept(number)]
        if len(kept) >= CHANGES:
            return {"code": 10, "error": "full-changes", "ok": False}
        if request["op"] == "put" and sum(len(it.get("text", "")) for it in [*kept, request]) > BYTES:
            return {"code": 11, "error": "full-text", "ok": False}
        self.changes.append(request)
        change = Change(project, path, request.get("lang"), request.get("text"), request.get("conditions"))
        self.history.add(len(self.changes), change)
        return value(len(self.changes))

    def ask(self, by):
        return value(len(self.changes))

    def took(self, by):
        free = [it for it in self.undone() if it not in [number for _, number in self.taken]]
        if free:
            self.taken.append((by, free[0]))
        return value(free[0] if free else None)

    def back(self, by, change):
        is_allowed = self.is_undone(change) and (by, change) in self.taken
        if is_allowed:
            self.taken.remove((by, change))
        return {"ok": is_allowed}

    def done(self, by, change):
        is_allowed = self.is_undone(change)
        if is_allowed:
            self.finished.add(change)
        return {"ok": is_allowed}

    def apply(self, shard):
        if self.applied[shard] >= self.ready():
            return {"ok": False}
        self.applied[shard] += 1
        return value(self.applied[shard])

    def publish(self, version):
        is_allowed = self.published < version <= min(self.ready(), *self.applied)
        if is_allowed:
            self.published = version
        return {"ok": is_allowed}

    def open(self, by):
        if by in self.views:
            return {"ok": False}
        self.views[by] = self.published
        return value(self.published)

    def read(self, by, shard, key):
        if by not in self.views:
            return {"ok": False}
        return value([[change, at] for change, at, of in self.windows(self.views[by]) if of == key and key % SHARDS == shard])

    def reply(self, by, request):
        if by not in self.views:
            return {"ok": False}
        return self.history.reply({"min": 100, **request}, self.views[by])

    def shut(self, by):
        return {"ok": self.views.pop(by, None) is not None}

    def floor(self, version):
        is_allowed = self.given_up < version <= self.least_seen()
        if is_allowed:
            self.given_up = version
        return {"ok": is_allowed}

    def sweep(self, shard):
        return {"ok": True}


def value(of):
    return {"ok": True, "value": of}


def drawn_project(draws):
    return "q.2" if draws.below(4) == 0 else "p"


def drawn_change(draws):
    """Six uploads of nine, two drops and a gate."""
    of_nine, project = draws.below(9), drawn_project(draws)
    if of_nine == 8:
        conditions = [{"metric": draws.of(NAMES), "op": draws.of(["GT", "GT", "LT"]), "error": draws.below(4)}
                      for _ in range(draws.below(4))]
        return {"op": "gate", "project": project, "conditions": conditions}
    if of_nine > 5:
        return {"op": "drop", "project": project, "path": draws.of(PATHS)}
    words = [draws.of(["a"] * 11 + ["b"] * 9 + ["if"] * 2 + ["#", ""]) + draws.of("\n   ") for _ in range(draws.below(9))]
    return {"op": "put", "project": project, "path": draws.of(PATHS), "lang": draws.of(["any", "any", "java"]), "text": "".join(words)}


def drawn_query(draws, accepted):
    """A query, mostly with some of the members that its kind may have; `at` and `finish` have no effect in a script."""
    op = draws.of(["files", "files", "verdict", "measures", "measures", "groups", "groups", "groups"])
    query = {"op": op, "project": drawn_project(draws)}
    if op != "files" and draws.below(8):
        query["min"] = 2 + draws.below(4)
    if op in ("groups", "measures") and draws.below(2):
        query["path"] = draws.of(PATHS)
    if draws.below(3) == 0:
        query["at"] = draws.below(accepted + 3)
    if draws.below(4):
        query["finish"] = draws.below(3) == 0
    if op in ("verdict", "measures"):
        if "path" not in query and draws.below(2):
            query["scope"] = draws.of(SCOPES)
        if draws.below(3) == 0:
            query["since"] = draws.below(accepted + 1)
    return query


def drawn_steps(draws, script):
    """One step, or three: a shard is swept, and the same is read of it before and after that."""
    by = draws.below(16) if draws.below(4) == 0 else draws.below(3)
    viewer = next(iter(script.views), by) if draws.below(2) else by
    number = draws.below(len(script.changes) + 2)
    drawn = draws.below(70)
    if drawn < 24:
        return [drawn_work(draws, script, by, number)]
    if drawn < 38:
        return [{"step": "apply", "shard": draws.below(2)}]
    if drawn < 44:
        return [{"step": "publish", "version": number if draws.below(4) == 0 else script.published + 1 + draws.below(3)}]
    if drawn < 47:
        return [{"step": "open", "by": by}]
    if drawn < 51:
        return [{"step": "shut", "by": viewer}]
    if drawn < 54:
        return [{"step": "floor", "version": number if draws.below(4) == 0 else script.least_seen()}]
    if drawn < 60:
        windows = script.windows(script.views.get(viewer, len(script.changes)))
        key = draws.of(windows)[2] if windows and draws.below(8) else draws.below(9)
        shard = draws.below(2) if draws.below(5) == 0 else key % 2
        read = {"step": "read", "by": viewer, "shard": shard, "key": key}
        return [read, {"step": "sweep", "shard": shard}, read] if drawn < 56 else [read]
    return [{"step": "reply", "by": viewer, "request": drawn_query(draws, len(script.changes))}]


def drawn_work(draws, script, by, number):
    """A step that changes what is accepted or done."""
    job = number if draws.below(3) == 0 else script.ready() + 1
    drawn = draws.below(24)
    if drawn < 9:
        return {"step": "accept", "by": by, "request": drawn_change(draws)}
    if drawn < 11:
        return {"step": "took", "by": by}
    if drawn < 13:
        owner, taken = script.taken[-1] if script.taken and draws.below(2) else (by, job)
        return {"step": "back", "by": owner, "change": taken}
    if drawn < 23:
        return {"step": "done", "by": by, "change": job}
    return {"step": "ask", "by": by}


def text(line):
    return json.dumps(line, ensure_ascii=False, separators=(",", ":"))


def drawn_script(key_bits, seed):
    """The lines of a script, each with its outcome. Each tenth is refused."""
    draws, script = Draws(seed), Script(key_bits)
    for at in range(300):
        if at == 159:
            yield LONG_TEXT, {"code": 6, "error": "text", "ok": False}
        elif at == 249:
            yield LONG_LINE, {"code": 13, "error": "long", "ok": False}
        elif at % 10 == 9:
            yield REFUSED[at // 10 % len(REFUSED)]
        else:
            for step in drawn_steps(draws, script):
                members = {name: it for name, it in step.items() if name != "step"}
                yield text(step), getattr(script, step["step"])(**members)


def kind_of(line, outcome):
    """What an outcome is counted as: a refusal, whether a step is allowed, or the first member that it has."""
    if "error" in outcome:
        return f"refused: {outcome['error']}"
    step = json.loads(line)["step"]
    for name, told in outcome.items():
        if name not in ("ok", "total", "version"):
            return f"{step}: no {name}" if told in (None, []) else f"{step}: {name}"
    return f"{step}: {'allowed' if outcome['ok'] else 'not allowed'}"


def main():
    if sys.argv[1:2] in (["--help"], ["-h"]):
        print(__doc__.strip())
        return
    if not all(it.isdecimal() for it in sys.argv[1:]):
        sys.exit("bench/scripts.py: a seed is a number; see bench/scripts.py --help")
    seeds = [int(it) for it in sys.argv[1:]] or [30, 70, 110]
    kinds = collections.Counter()
    print("# Scripts of steps that are drawn at random, with what a plain model of them finds (bench/scripts.py).")
    for at, seed in enumerate(seeds):
        key_bits = [0, 3, 64][at % 3]
        print(f"\n# Seed {seed}.")
        print(f"$ drive --chunk {CHUNK} --shards {SHARDS} --key-bits {key_bits} --change-limit {CHANGES} --text-limit {BYTES}")
        for line, outcome in drawn_script(key_bits, seed):
            kinds[kind_of(line, outcome)] += 1
            print(f"{line} -> {json.dumps(outcome, ensure_ascii=False, separators=(',', ':'), sort_keys=True)}")
    for kind, count in sorted(kinds.items()):
        print(f"{count:5} {kind}", file=sys.stderr)


main()
