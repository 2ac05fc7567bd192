"""Checks the replies to several clients of one server by the one history of all their changes.

A `Log` takes the replies to one client, in the order of its lines. What needs no other client is checked at once: versions and numbers never
fall, and none is older than what was reported to that client before. The rest is kept until all clients have ended. Then their changes make
the one history (`by_number`), and each log is checked by it (`check`): an answer is that of its version; a drop was accepted only if its file
was there, and refused only if it was missing; and what was reported as not done is an upload.
"""
from load import must
from model import History, line_of, refusal


def is_line(reply, wanted):
    return line_of(reply) == line_of(wanted)


class Log:
    """What was reported to one client."""

    def __init__(self):
        # Changes with their numbers, and queries with their answers.
        self.changes, self.replies = [], []
        # Drops that were refused, each with how many changes had been accepted at least, and how many of this client's.
        self.absent = []
        # Changes that were not done: those that a query had to wait for, and those after the `done` of a state.
        self.pending, self.undone = [], []
        # The greatest number that was reported in this session; the last version; how many changes are done, and how many accepted.
        self.seen = self.shown = self.done = self.accepted = 0

    def begin_session(self):
        self.seen = 0

    def change(self, change, reply):
        """The reply to a change: it comes after all that this client knows of, or is a drop that is refused."""
        if is_line(reply, refusal(9, "absent")):
            must(change.is_drop, change, reply)
            self.absent.append((self.accepted, len(self.changes), change))
        else:
            number = reply.get("change", 0)
            must(is_line(reply, {"change": number, "ok": True}) and self.accepted < number, change, reply)
            self.changes.append((number, change))
            self.seen = self.accepted = number

    def state(self, reply):
        """The reply to `state`: no number falls."""
        accepted, done, published = (reply.get(it, -1) for it in ("accepted", "done", "published"))
        known = (self.accepted, self.done, self.shown)
        must(is_line(reply, {"accepted": accepted, "done": done, "ok": True, "published": published}), known, reply)
        must(self.shown <= published <= done <= accepted and self.done <= done and self.accepted <= accepted, known, reply)
        if done < accepted:
            self.undone.append(done + 1)
        self.accepted, self.done = accepted, done
        self.show(published)

    def query(self, query, reply):
        """The reply to a query. Whether it is an answer, which is to be compared with that of the history."""
        floor = max(self.seen, query.get("at", 0))
        waits = query.get("finish", True)
        if reply.get("error") == "future":
            count = reply.get("count", -1)
            must(is_line(reply, refusal(8, "future", count=count)), query, reply)
            must(self.accepted <= count < query.get("at", 0), (query, self.accepted), reply)
            self.accepted = count
            return False
        if reply.get("error") == "pending":
            number = reply.get("number", 0)
            must(is_line(reply, refusal(12, "pending", number=number)) and not waits, query, reply)
            must(self.done < number <= floor, (query, self.done, floor), reply)
            self.pending.append(number)
            self.accepted, self.done = max(self.accepted, floor), number - 1
            return False
        version = reply.get("version", -1)
        must(max(floor, self.accepted if waits else self.shown) <= version, (query, floor, self.accepted, self.shown), reply)
        self.show(version)
        return True

    def show(self, version):
        """A version was published."""
        self.seen, self.shown = max(self.seen, version), version
        self.done = max(self.done, version)
        self.accepted = max(self.accepted, version)


def by_number(changes):
    """The changes by their numbers, which are 1 and so on, each once."""
    numbered = {}
    for at, change in changes:
        must(at not in numbered, change, f"{at}, as {numbered.get(at)} was")
        numbered[at] = change
    missing = set(range(1, len(numbered) + 1)) - set(numbered)
    must(not missing, "changes", f"without the numbers {sorted(missing)}")
    return numbered


def check(numbered, log):
    """Compares a log with the history of all changes."""
    history = History(sorted(numbered.items()))
    must(log.accepted <= len(numbered), "all clients", f"{log.accepted} accepted changes, and has {len(numbered)}")
    for query, reply in log.replies:
        wanted = history.reply(query, reply["version"])
        must(is_line(reply, wanted), query, f"{line_of(reply)}, not {line_of(wanted)}")
    for at in log.pending + log.undone:
        must(at in numbered and numbered[at].text is not None, f"change {at}", "not done")
    for at, change in log.changes:
        must(not change.is_drop or history.has(change.project, at - 1, change.path), change, at)
    for first, behind, change in log.absent:
        last = log.changes[behind][0] - 1 if behind < len(log.changes) else len(numbered)
        is_absent = (not history.has(change.project, version, change.path) for version in range(first, last + 1))
        must(any(is_absent), change, f"absent from {first} to {last}")
