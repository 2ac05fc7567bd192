"""Brings the files of a project on a server to what the tree has, and makes sure that the server has them."""
from __future__ import annotations

from collections.abc import Iterator
from dataclasses import dataclass, field
from pathlib import Path
from typing import Optional

from .faults import Fault, Restarted
from .findings import File, Skipped, files_of, member
from .notes import Notes
from .protocol import Reply, Request, Server
from .state import Known, State
from .texts import Binary, Unfit, hash_of, text_of
from .tree import Choice, Tree, real, tree_of
from .wording import counted

# How often all is compared again, if the server lost files meanwhile or another client uploaded them.
PASSES = 3


@dataclass
class Upload:
    """What a call uploaded. `known` is what the server has of it, `files` all that the project has."""
    tree: Tree
    encoding: Optional[str] = None
    known: dict[str, Known] = field(default_factory=dict)
    put: set[str] = field(default_factory=set)
    dropped: set[str] = field(default_factory=set)
    skipped: list[Skipped] = field(default_factory=list)
    binary: list[str] = field(default_factory=list)
    alike: list[str] = field(default_factory=list)
    hashes: dict[str, str] = field(default_factory=dict)
    files: tuple[File, ...] = ()

    def text_of(self, path: str) -> Optional[str]:
        """The text that the server has of a path, read again; None if the file is another one by now."""
        file = self.tree.by_path.get(path) if path in self.known else None
        if file is None:
            return None
        try:
            text = text_of(self.tree, file, self.encoding)
        except (Binary, Unfit):
            return None
        return text if hash_of(file.lang, text) == self.known[path].hash else None

    def summary(self) -> str:
        return (f"{len(self.put):,} uploaded, {len(self.known) - len(self.put):,} unchanged, {len(self.dropped):,} dropped, "
                f"{len(self.skipped):,} left out")


def upload(server: Server, project: str, tree: Tree, state: Optional[State], notes: Notes, *, encoding: Optional[str] = None,
           once: bool = False) -> Upload:
    """Uploads the files that the server does not have as they are, and drops those that an earlier call uploaded from the same
    folders and that are there no more. With `once`, of files with the same language and text only the first is uploaded."""
    for _ in range(PASSES):
        done = Upload(tree, encoding, skipped=list(tree.skipped))
        generation = server.generation
        try:
            one_pass(server, project, done, state, notes, once)
            with notes.waiting("waiting for the server: analysis"):
                lost = lost_of(server.files(project), done)
        except Restarted:
            notes.say("the server was started again meanwhile; all files are uploaded again")
            continue
        finally:
            notes.clear()
            if state:
                state.keep()
        if not lost and server.generation == generation:
            return done
        if lost:
            notes.say(f"{counted(len(lost), 'file')} did not stay as uploaded, the first is {lost[0]}; they are uploaded again")
    raise Fault(f"project {project} does not stay as this call uploads it: another client uploads to it, or the server starts again")


def one_pass(server: Server, project: str, done: Upload, state: Optional[State], notes: Notes, once: bool) -> None:
    if state:
        state.begin(server.epoch_known())
    entry = state.entry.files if state else {}
    standing = changes_of(server.files(project)) if entry else {}
    for path in [path for path, known in entry.items() if standing.get(path) != known.change]:
        # somebody else changed this file: what the server has is not ours
        del entry[path]
    for request, reply in server.ask_each(puts(project, done, entry, notes, once)):
        path = request["path"]
        if reply.is_ok:
            done.put.add(path)
            done.known[path] = entry[path] = Known(done.hashes[path], member(reply.members, "change", int))
        elif reply.error in ("full-text", "full-changes"):
            raise Fault(f"{reply.refusal()}: {len(done.known):,} of {len(done.tree.sources):,} files are uploaded. Choose fewer with --exclude, "
                        "or use a further server")
        else:
            done.skipped.append(Skipped(path, reply.refusal()))
    if not done.known:
        raise Fault(none_fit(done))
    gone = [path for path in sorted(entry) if path not in done.known and done.tree.looked_at(path)]
    for request, reply in server.ask_each({"op": "drop", "project": project, "path": path} for path in gone):
        if not reply.is_ok and reply.error != "absent":
            raise Fault(f"{request['path']} can't be dropped: {reply.refusal()}")
        del entry[request["path"]]
        done.dropped.add(request["path"])


def none_fit(done: Upload) -> str:
    first = next(iter(done.skipped), None)
    cause = f"{first.path}: {first.why}" if first else f"{done.binary[0]} is binary" if done.binary else "there are none"
    count = len(done.tree.sources)
    which = "the only file could not" if count == 1 else f"none of {count:,} files could"
    return f"{which} be uploaded: {cause}"


def puts(project: str, done: Upload, entry: dict[str, Known], notes: Notes, once: bool) -> Iterator[Request]:
    """The requests for the files that the server does not have. What no request can hold is noted in `done`."""
    first: dict[str, str] = {}
    size = 0
    for number, source in enumerate(done.tree.sources, 1):
        size += source.size
        if notes.is_terminal:
            notes.progress(f"{number:,} of {len(done.tree.sources):,} files, {size / 1e6:,.1f} of {done.tree.size / 1e6:,.1f} MB")
        try:
            text = text_of(done.tree, source, done.encoding)
        except Binary:
            done.binary.append(source.path)
            continue
        except Unfit as why:
            done.skipped.append(Skipped(source.path, str(why)))
            continue
        done.hashes[source.path] = text_hash = hash_of(source.lang, text)
        if once and first.setdefault(text_hash, source.path) != source.path:
            done.alike.append(source.path)
            continue
        known = entry.get(source.path)
        if known and known.hash == text_hash:
            done.known[source.path] = known
        else:
            yield {"op": "put", "project": project, "path": source.path, "lang": source.lang, "text": text}


def changes_of(reply: Reply) -> dict[str, int]:
    return {member(file, "path", str): member(file, "change", int) for file in member(reply.members, "files", list)}


def lost_of(reply: Reply, done: Upload) -> list[str]:
    """The files that the server does not have by the change that it reported, or that it still has after they were dropped."""
    done.files = files_of(reply.members)
    standing = changes_of(reply)
    lost = [path for path, known in done.known.items() if standing.get(path) != known.change]
    return sorted(lost) + sorted(path for path in done.dropped if path in standing)


def tell(done: Upload, notes: Notes) -> None:
    """Says which files were not uploaded, and which have no tokens."""
    notes.each([f"{skipped.path}: left out: {skipped.why}" for skipped in done.skipped], "left out")
    if done.binary:
        notes.say(f"{counted(len(done.binary), 'binary file')} passed over, the first is {done.binary[0]}")
    if done.alike:
        notes.say(f"{counted(len(done.alike), 'file')} passed over that another one equals, the first is {done.alike[0]}")
    notes.each(list(faults_of(done)), "without tokens")
    others = len(done.files) - len(done.known)
    if others > 0:
        notes.say(f"{counted(others, 'file')} of the project that this call did not upload")


def faults_of(done: Upload) -> Iterator[str]:
    """Of each file of the project that has no tokens, why; with the line if its text is at hand."""
    for file in done.files:
        if file.state == "fault":
            text = done.text_of(file.path)
            at = file.at or 0
            line = f":{text.encode('utf-8')[:at].count(10) + 1}" if text is not None else ""
            yield f"{file.path}{line}: byte {at} begins no token of {file.lang}, so no duplicate is found in this file"
        elif file.state == "large":
            yield f"{file.path}: it has more than 262,144 tokens, so no duplicate is found in it"


def folder_puts(folder: Path, project: str, choice: Optional[Choice] = None) -> Iterator[Request]:
    """The requests that upload a folder. What no request can hold is said and left out."""
    notes, root = Notes(), real(folder)
    done = Upload(tree_of(root, [root], None, choice or Choice(), notes))
    yield from puts(project, done, {}, notes, False)
    tell(done, notes)
