"""Which files are uploaded, by which path and in which language."""
from __future__ import annotations

import json
import os
from pathlib import Path

import pytest

from cqd_client import command
from cqd_client.faults import Misuse
from cqd_client.notes import Notes
from cqd_client.patterns import Patterns, compiled, expanded
from cqd_client.protocol import started
from cqd_client.texts import contents, too_large
from cqd_client.tree import Choice, Source, Tree, tree_of
from conftest import Client, Repository, lines_of


def paths(root: Path, *named: Path, listing: bytes | None = None, **choice: object) -> list[str]:
    tree = tree_of(root, list(named or [root]) if listing is None else list(named), listing, Choice(**choice), Notes(False))  # type: ignore[arg-type]
    return [source.path for source in tree.sources]


def make(folder: Path, *names: str) -> None:
    for name in names:
        (folder / name).parent.mkdir(parents=True, exist_ok=True)
        (folder / name).write_text("int a;\n")


def test_folders_and_files(tmp_path: Path) -> None:
    make(tmp_path, "a/x.c", "a/b/y.go", "a/z.txt", "c/w.java", "c/.git/v.c", "u.h", "v.mjs", "w.jsx", "x.ts", "y.tsx")
    assert paths(tmp_path) == ["a/b/y.go", "a/x.c", "c/w.java", "u.h", "v.mjs", "w.jsx", "x.ts"]
    assert paths(tmp_path, tmp_path / "a", tmp_path / "u.h", tmp_path / "a" / "x.c") == ["a/b/y.go", "a/x.c", "u.h"]


def test_what_git_lists(repository: Repository, tmp_path: Path) -> None:
    make(tmp_path, "a.c", "out/b.c", "new.c", "deep/out/c.c", "deep/kept.c", "gone.c")
    (tmp_path / ".gitignore").write_text("out/\n")
    (tmp_path / "deep" / ".gitignore").write_text("!out/\n")
    repository.git("add", "a.c", "gone.c")
    (tmp_path / "gone.c").unlink()
    expected = ["a.c", "deep/kept.c", "deep/out/c.c", "new.c"]
    assert paths(tmp_path) == expected
    # without git the same files are found by .gitignore
    os.rename(tmp_path / ".git", tmp_path.parent / "git-elsewhere")
    try:
        assert paths(tmp_path) == expected
        assert paths(tmp_path, reads_ignores=False) == ["a.c", "deep/kept.c", "deep/out/c.c", "new.c", "out/b.c"]
    finally:
        os.rename(tmp_path.parent / "git-elsewhere", tmp_path / ".git")


def test_what_gitignore_may_be(client: Client, tmp_path: Path) -> None:
    make(tmp_path, "a.c", "b.c")
    ignore = tmp_path / ".gitignore"
    for made in (ignore.mkdir, lambda: os.mkfifo(ignore), lambda: ignore.symlink_to("b.c"), lambda: ignore.symlink_to(".gitignore")):
        # as for git, only a file is one
        made()
        assert client("put", ".").stdout.startswith("2 uploaded")
        os.rename(ignore, tmp_path / f"not{len(os.listdir(tmp_path))}")
    # lines that are no patterns fit nothing
    ignore.write_bytes(b"!\n\\\n[\n\xff\n/\n[a-\nb.c\n \\ \n")
    assert client("put", ".").stdout.startswith("1 uploaded")


@pytest.mark.parametrize("listing", [b"a.c\nsub/b.c\nnot.txt\n", b"a.c\0sub/b.c\0", b"a.c\r\nsub/b.c"])
def test_files_from_a_list(tmp_path: Path, listing: bytes, monkeypatch: pytest.MonkeyPatch) -> None:
    make(tmp_path, "a.c", "sub/b.c", "sub/other.c", "not.txt")
    monkeypatch.chdir(tmp_path)
    assert paths(tmp_path, listing=listing) == ["a.c", "sub/b.c"]


def test_a_list_of_the_command(client: Client, tmp_path: Path) -> None:
    make(tmp_path, "a.c", "b.c", "c.c")
    assert client("put", "--files-from", "-", stdin=b"a.c\0b.c\0").stdout.startswith("2 uploaded")
    (tmp_path / "list").write_text("a.c\nmissing.c\n")
    ran = client("put", "--files-from", "list")
    assert ran.returncode == 2 and "missing.c: left out: No such file" in ran.stderr
    (tmp_path / "sub").mkdir()
    assert "1 folder of the list not read, the first is sub" in client("put", "--files-from", "-", stdin=b"a.c\nsub\n").stderr
    assert client("put", "--files-from", "nolist").returncode == 2
    assert client("put", "--files-from", "-", stdin=b"").returncode == 2
    ran = client("put", "--files-from", "-", stdin=b"none.c\nmissing.c\n")
    assert (ran.returncode, ran.stderr) == (2, "cqd-client: there are no source files in the list on standard input (none.c: No such file or "
                                               "directory): nothing was uploaded or dropped\n")


def test_a_path_that_leads_nowhere(client: Client, tmp_path: Path) -> None:
    os.symlink("loop", tmp_path / "loop")
    for path in ("loop", "loop/a.c", "nowhere", "n" * 5000):
        ran = client("put", path)
        assert ran.returncode == 2 and len(ran.stderr.splitlines()) == 1


def test_links_are_not_followed(tmp_path: Path) -> None:
    make(tmp_path, "real/a.c")
    os.symlink(".", tmp_path / "self")
    os.symlink("loop", tmp_path / "loop")
    os.symlink(tmp_path / "real", tmp_path / "linked")
    os.symlink(tmp_path / "real" / "a.c", tmp_path / "b.c")
    os.mkfifo(tmp_path / "pipe.c")
    assert paths(tmp_path) == ["real/a.c"]


@pytest.mark.parametrize("pattern, fitting, other", [
    ("*.go", ["a.go", "x/y/a.go"], ["a.gox", "go"]),
    ("/*.go", ["a.go"], ["x/a.go"]),
    ("vendor/", ["vendor/a", "x/vendor/y/a"], ["vendors/a", "x/avendor/a"]),
    ("/vendor/", ["vendor/a"], ["x/vendor/a"]),
    ("src/gen/", ["src/gen/a/b"], ["x/src/gen/a"]),
    ("src/**/*_test.go", ["src/a_test.go", "src/x/y/a_test.go"], ["a_test.go", "src/a.go"]),
    ("src/**", ["src", "src/a/b"], ["srcs/a"]),
    ("**", ["a", "a/b"], []),
    ("a?c", ["abc", "x/aäc"], ["ac", "a/c"]),
    ("a.c", ["a.c"], ["abc"]),
    ("[a].c", ["[a].c"], ["a.c"]),
])
def test_patterns(pattern: str, fitting: list[str], other: list[str]) -> None:
    form = compiled(expanded(pattern))
    assert [path for path in fitting if not form.fullmatch(path + "/")] == []
    assert [path for path in other if form.fullmatch(path + "/")] == []


@pytest.mark.parametrize("pattern", ["", "/", "a//b", "../a", "a/./b", "a\nb", "x" * 600])
def test_what_is_no_pattern(pattern: str) -> None:
    with pytest.raises(Misuse):
        expanded(pattern)


def test_patterns_fit_as_the_server_has_it(program: str) -> None:
    """Random patterns and paths, by the measures that the server gives for the scope."""
    import random  # pylint: disable=import-outside-toplevel
    chance = random.Random(7)
    parts = ["a", "b", "ab", "ba", "aab", "ä", "a.b"]
    paths_ = sorted({"/".join(chance.choices(parts, k=chance.randint(1, 4))) for _ in range(120)})
    kept = [path for path in paths_ if not any(other.startswith(path + "/") for other in paths_)]
    forms = ["*", "**", "a*", "*b", "?", "a?", "*a*", "ab", "??*", "***", "a**b", "ä"]
    with started(program, ["--chunk", "2"], 60) as server:
        for path in kept:
            server.answer({"op": "put", "project": "p", "path": path, "lang": "any", "text": ""})
        for _ in range(400):
            scope = "/".join(chance.choices(forms, k=chance.randint(1, 4)))
            members = server.answer({"op": "measures", "project": "p", "scope": scope, "min": 2}).members["measures"]
            form = compiled(scope)
            assert members["files"] == sum(form.fullmatch(path + "/") is not None for path in kept), scope


def test_include_exclude_and_map(client: Client, tmp_path: Path) -> None:
    make(tmp_path, "src/a.c", "src/a_test.c", "src/gen/b.c", "lib/c.kt", "lib/d.cc", "e.c")
    assert client("put", ".", "--exclude", "*_test.c", "--exclude", "gen/").stdout.startswith("2 uploaded")
    assert client("put", ".", "--include", "src/", "--map", "*.kt=java").stdout.startswith("3 uploaded")
    ran = client("groups", ".", "--map", "*.cc=c", "--any", "*.kt", "--exclude", "nothing")
    assert ran.returncode == 0 and "--exclude 'nothing' fits no file; all files below a folder are 'nothing/'" in ran.stderr
    assert client("put", "lib").returncode == 2
    assert "--map" in client("put", "lib").stderr
    assert client("put", ".", "--map", "*.kt=kotlin").returncode == 3


def test_code_that_is_not_read_is_told(client: Client, tmp_path: Path) -> None:
    make(tmp_path, "a.c", "b.kt", "lib/c.cc", "lib/d.cc", "e.md", "Makefile")
    assert "3 files of other endings (.cc, .kt) are not read; --map '*.cc=LANGUAGE'" in client("put", ".").stderr
    assert "1 file of other endings (.kt) is not read; --map '*.kt=LANGUAGE'" in client("put", ".", "--exclude", "lib/").stderr
    assert client("put", ".", "--exclude", "lib/", "--map", "*.kt=java").stderr == ""
    ran = client("put", ".", "--include", "Makefile")
    assert ran.returncode == 2 and "1 file of other endings (none) is not read; --map 'PATTERN=LANGUAGE'" in ran.stderr


def test_paths_are_below_the_root(client: Client, tmp_path: Path, repository: Repository) -> None:
    repository.write("src/deep/a.c", lines_of("a"))
    repository.write("src/b.c", lines_of("b"))
    assert "src/b.c:1: " in client("groups", "src").stdout
    client.folder = tmp_path / "src" / "deep"
    assert "src/b.c:1: " in client("groups", "..", ".").stdout
    assert "deep/a.c:1" in client("groups", "..", "--root", "..").stdout
    assert client("groups", "..", "--root", ".").returncode == 3


def test_encodings_and_binary_files(client: Client, tmp_path: Path) -> None:
    (tmp_path / "a.c").write_bytes("\ufeffint a;\n".encode())
    (tmp_path / "b.c").write_bytes("int b;\n".encode("utf-16"))
    (tmp_path / "c.c").write_bytes("int ä;\n".encode("latin-1"))
    (tmp_path / "d.c").write_bytes(b"\0\1\2" * 100)
    ran = client("put", ".")
    assert ran.returncode == 2 and ran.stdout.startswith("2 uploaded") and "1 binary file passed over, the first is d.c" in ran.stderr
    assert "c.c: left out: it is not UTF-8 at byte 4; --encoding" in ran.stderr
    ran = client("put", ".", "--encoding", "latin-1")
    assert ran.returncode == 0 and ran.stdout.startswith("3 uploaded")
    # without a mark, text that has zeros is only known from binary files by the encoding that is named
    (tmp_path / "d.c").write_bytes("int d;\n".encode("utf-16-le"))
    ran = client("put", ".", "--encoding", "utf-16-le", "--exclude", "c.c")
    assert ran.returncode == 0 and ran.stdout.startswith("3 uploaded") and "binary" not in ran.stderr
    for name in ("no-such", "rot13", "base64"):
        assert client("put", ".", "--encoding", name).returncode == 3


@pytest.mark.parametrize("size", [0, 1, 99_999, 100_000, 100_001, 1_000_000])
def test_a_file_is_read_whole_whatever_its_size_was(tmp_path: Path, size: int) -> None:
    whole = bytes(number % 251 for number in range(100_000))
    (tmp_path / "a").write_bytes(whole)
    assert contents(os.fsencode(tmp_path / "a"), size) == whole


def test_what_no_request_can_hold(client: Client, tmp_path: Path) -> None:
    (tmp_path / "long.c").write_text("int a; " * 160_000)
    (tmp_path / "tab\tname.c").write_text("int a;\n")
    (tmp_path / os.fsdecode(b"not-utf8-\xff.c")).write_text("int a;\n")
    make(tmp_path, "fine.c", "/".join(["d" * 200] * 3) + "/far.c")
    ran = client("put", ".")
    assert ran.returncode == 2 and ran.stdout.strip().endswith("1 uploaded, 0 unchanged, 0 dropped, 4 left out")
    for said in ("1,048,576 bytes", "control characters", "not-utf8-\\xff.c: left out: its name is not UTF-8", "at most 512"):
        assert said in ran.stderr
    for names, said in ((("tab\tname.c",), "the only file could not be uploaded: tab\tname.c: its name"),
                        (("tab\tname.c", "long.c"), "none of 2 files could be uploaded: long.c: it has more than 1,048,576 bytes")):
        ran = client("put", *names)
        assert ran.returncode == 2 and said in ran.stderr, ran.stderr


def test_identical_files_once(client: Client, tmp_path: Path) -> None:
    for name in ("a.c", "b.c", "x/c.c"):
        (tmp_path / name).parent.mkdir(exist_ok=True)
        (tmp_path / name).write_text(lines_of("same"))
    assert client("groups", ".", "--fail-on", "any-duplicate").returncode == 1
    ran = client("groups", ".", "--fail-on", "any-duplicate", "--skip-duplicate-files")
    assert ran.returncode == 0 and "2 files passed over" in ran.stderr


def test_what_is_too_large_is_told_before_in_one_line() -> None:
    tree = Tree(Path("/"), [""], [Source(f"{folder}/{i}.c", "c", size) for folder, size in (("big", 9), ("mid/x", 5), ("small", 1)) for i in range(10)])
    assert too_large(tree, 150) == ""
    assert "leave out mid with --exclude '/mid/' (50 bytes)" in too_large(tree, 100)
    assert "leave out big" in too_large(tree, 60)
    assert "further servers" in too_large(tree, 40) and "\n" not in too_large(tree, 40)


def test_more_than_a_server_holds(client: Client, tmp_path: Path) -> None:
    for number in range(70):
        file = tmp_path / ("third" if number % 3 else "main") / f"{number}.c"
        file.parent.mkdir(exist_ok=True)
        with open(file, "wb") as sparse:
            sparse.truncate(1_000_000)
    ran = client("put", ".")
    assert ran.returncode == 2 and len(ran.stderr.splitlines()) == 1
    assert "--exclude '/main/'" in ran.stderr


def test_a_pattern_prunes_folders(tmp_path: Path) -> None:
    make(tmp_path, "a/vendor/x.c", "vendor/y.c", "z.c")
    exclude = Patterns(["vendor/"])
    assert paths(tmp_path, exclude=exclude) == ["z.c"]
    assert exclude.unused() == []


CONFIG = """
project = "shop"
paths = ["src"]
exclude = ["gen/"]
gate = "duplicated_lines_density>3"
min = 50
[map]
"*.kt" = "java"
"""


def test_a_configuration_gives_defaults(client: Client, tmp_path: Path) -> None:
    make(tmp_path, "src/a.kt", "src/gen/b.c", "other/c.c")
    (tmp_path / ".cqd.toml").write_text(CONFIG)
    ran = client("groups", "--json")
    assert ran.returncode == 0 and json.loads(ran.stdout)["version"] == 2
    client.folder = tmp_path / "other"
    assert client("put").stdout.startswith("1 uploaded")
    assert client("put", "c.c").stdout.startswith("1 uploaded")
    assert client("verdict", "--gate", "lines>0").returncode == 1
    assert client("verdict").returncode == 0


@pytest.mark.parametrize("text, said", [
    ("mni = 3", "mni is no option"),
    ("min = 0", "'0' is no number"),
    ("min = [3]", "no list"),
    ("min = 'x'", "no number"),
    ("min = ", "Invalid value"),
    ("format = 'html'", "is none of"),
    ("tls = 'yes'", "true or false"),
    ("project = 'a b'", "name of a project"),
    ("gate = 'lines'", "--gate"),
    ("[server]\naddr = 'x'", "server is no option"),
    ("addr = 'x'", "HOST:PORT"),
    ("output = 'x'", "is no option"),
    ('cqd = "x\\u0000"', "cqd has a NUL"),
    ('encoding = "x\\u0000"', "encoding has a NUL"),
    ('paths = ["x\\u0000"]', "paths has a NUL"),
])
def test_a_configuration_that_is_wrong(client: Client, tmp_path: Path, text: str, said: str) -> None:
    make(tmp_path, "a.c")
    (tmp_path / ".cqd.toml").write_text(text)
    ran = client("groups", ".")
    assert ran.returncode == 3 and said in ran.stderr, ran.stderr


def test_the_command_line_wins_over_the_variable_and_that_over_the_file(client: Client, tmp_path: Path) -> None:
    make(tmp_path, "a.c")
    (tmp_path / ".cqd.toml").write_text("addr = ['127.0.0.1:1']\nproject = 'p'\n")
    assert "127.0.0.1:1 " in client("groups", ".").stderr
    assert "127.0.0.1:2 " in client("groups", ".", CQD_ADDR="127.0.0.1:2").stderr
    assert "127.0.0.1:3 " in client("groups", ".", "--addr", "127.0.0.1:3", CQD_ADDR="127.0.0.1:2").stderr
    assert client("groups", ".", CQD_ADDR="nonsense").returncode == 3
    assert client("groups", ".", "--local").returncode == 0


def test_what_the_command_line_names_is_not_taken_from_the_file(tmp_path: Path, monkeypatch: pytest.MonkeyPatch) -> None:
    (tmp_path / ".cqd.toml").write_text("workers = 4\npaths = ['src']\nfiles-from = 'listed'\n")
    monkeypatch.chdir(tmp_path)
    monkeypatch.delenv("CQD_ADDR", raising=False)

    def option(name: str, *words: str) -> object:
        return vars(command.options_of(["groups", *words]))[name]
    assert option("workers", ".") == 4
    assert option("workers", ".", "--workers", "0") == 0
    assert option("paths") == [tmp_path / "src"] and option("files_from") == str(tmp_path / "listed")
    assert option("paths", "--files-from", "names") == []
    assert option("files_from", ".") is None
