"""`check --base`: only duplicates and functions that meet a changed line fail, in a plain clean checkout."""
from __future__ import annotations

import json
import subprocess
from pathlib import Path

import pytest

from cqd_client.changed import Lines, read_diff
from conftest import Client, Repository, lines_of


@pytest.fixture
def branched(repository: Repository) -> Repository:
    """A repository whose main branch has an old duplicate, with a branch checked out."""
    repository.write("src/old1.c", lines_of("old1"))
    repository.write("src/old2.c", lines_of("old2"))
    repository.write("src/unique.c", "int unique;\n")
    repository.commit()
    repository.git("checkout", "-q", "-b", "work")
    return repository


def test_nothing_changed(client: Client, branched: Repository) -> None:
    ran = client("check", "--base", "main")
    assert (ran.returncode, ran.stdout) == (0, "OK\n")
    assert ran.stderr == "cqd-client: nothing has changed since main\n"


def test_old_duplicates_fail_no_build(client: Client, branched: Repository) -> None:
    branched.write("src/new.c", "int something_new;\n")
    branched.write("src/old1.c", lines_of("old1") + "int after;\n")
    branched.commit()
    assert client("check", "--base", "main").returncode == 0


@pytest.mark.parametrize("is_committed", [True, False])
def test_a_new_copy_fails(client: Client, branched: Repository, is_committed: bool) -> None:
    branched.write("src/sub/new.c", lines_of("new"))
    if is_committed:
        branched.commit()
    ran = client("check", "--base", "main")
    assert ran.returncode == 1
    assert ran.stdout.startswith("src/sub/new.c:1: ") and "also at src/old1.c:1, src/old2.c:1" in ran.stdout
    assert "ERROR" in ran.stdout.splitlines()


def test_few_files_to_compare_with_are_told(client: Client, branched: Repository) -> None:
    """As a hook names them that passes the names of the changed files on."""
    branched.write("src/new.c", lines_of("new"))
    for words in (["src/new.c"], ["src/new.c", "src/unique.c"], ["--files-from", "-"]):
        ran = client("check", "--base", "main", *words, stdin=b"src/new.c\n")
        assert ran.returncode == 0 and "copies are looked for only among " in ran.stderr
    for words in ([], ["src"], ["."]):
        ran = client("check", "--base", "main", *words)
        assert (ran.returncode, ran.stderr) == (1, "")


def test_a_change_within_a_duplicate_fails(client: Client, branched: Repository) -> None:
    renamed = lines_of("old1").replace("    return total;", "    return (total);")
    branched.write("src/old1.c", renamed)
    branched.write("src/old2.c", renamed.replace("old1", "old2"))
    branched.commit()
    assert client("check", "--base", "main").returncode == 1


def test_lines_taken_out_can_make_a_duplicate(client: Client, branched: Repository) -> None:
    before = lines_of("third").splitlines(keepends=True)
    between = [line for at, line in enumerate(before) for line in ([line, f"    call{at}();\n"] if 2 < at < 12 else [line])]
    branched.write("src/third.c", "".join(between))
    branched.commit()
    branched.git("branch", "-f", "main")
    assert client("check", "--base", "main").returncode == 0
    branched.write("src/third.c", "".join(before))
    assert client("check", "--base", "main").returncode == 1


def test_a_moved_file_is_no_new_copy(client: Client, branched: Repository) -> None:
    branched.git("mv", "src/old1.c", "src/moved.c")
    branched.commit()
    assert client("check", "--base", "main").returncode == 0
    branched.git("checkout", "-q", "-b", "copied", "main")
    branched.write("src/copied.c", lines_of("old1"))
    branched.commit()
    assert client("check", "--base", "main").returncode == 1


def test_what_main_got_since_does_not_count(client: Client, branched: Repository) -> None:
    branched.git("checkout", "-q", "main")
    branched.write("src/theirs.c", lines_of("theirs"))
    branched.commit()
    branched.git("checkout", "-q", "work")
    branched.write("src/ours.c", "int ours;\n")
    branched.commit()
    assert client("check", "--base", "main").returncode == 0


def test_functions_above_the_limit(client: Client, branched: Repository) -> None:
    complex_one = "int f(int n) {\n" + "".join(f"    if (n == {i}) return {i * i};\n" for i in range(12)) + "    return n;\n}\n"
    branched.write("src/old3.c", complex_one)
    branched.commit()
    branched.git("branch", "-f", "main")
    branched.write("src/g.c", complex_one.replace("f(", "g(").replace("n", "m"))
    assert client("check", "--base", "main").returncode == 0
    ran = client("check", "--base", "main", "--max-complexity", "10")
    assert ran.returncode == 1 and "src/g.c:1: complexity 13 of g" in ran.stdout and "old3" not in ran.stdout


def test_a_gate_over_changed_lines(client: Client, branched: Repository) -> None:
    branched.write("src/new.c", lines_of("new") + "".join(f"int v{i};\n" for i in range(100)))
    branched.commit()
    assert client("check", "--base", "main", "--gate", "duplicated_lines_density>20").returncode == 0
    ran = client("check", "--base", "main", "--gate", "duplicated_lines_density>3", "--json")
    assert ran.returncode == 1
    condition = json.loads(ran.stdout)["conditions"][0]
    assert condition["value"] == 18 * 10_000 // 118
    assert client("check", "--base", "main", "--gate", "complexity>3").returncode == 3


def test_what_git_does_not_know(client: Client, branched: Repository, tmp_path: Path) -> None:
    for base, said in (("nothing", "no such commit"), ("--upload-pack=x", "no such commit")):
        ran = client("check", f"--base={base}")
        assert ran.returncode == 2 and said in ran.stderr
    assert client("check").returncode == 3
    assert client("check", "--base", "").returncode == 3


def test_a_shallow_clone_says_so(branched: Repository, program: str, tmp_path_factory: pytest.TempPathFactory) -> None:
    branched.write("src/more.c", "int more;\n")
    branched.commit()
    branched.git("checkout", "-q", "main")
    branched.write("src/theirs.c", "int theirs;\n")
    branched.commit()
    folder = tmp_path_factory.mktemp("shallow")
    subprocess.run(["git", "clone", "-q", "--depth", "1", "--no-single-branch", "-b", "work", f"file://{branched.folder}", str(folder)], check=True)
    ran = Client(folder, program)("check", "--base", "origin/main")
    assert ran.returncode == 2 and "shallow" in ran.stderr


def test_outside_of_git(client: Client, tmp_path: Path) -> None:
    (tmp_path / "a.c").write_text("int a;\n")
    ran = client("check", "--base", "main", GIT_CEILING_DIRECTORIES=str(tmp_path.parent))
    assert ran.returncode == 2 and "no git work tree" in ran.stderr


def test_without_git(client: Client, branched: Repository, tmp_path: Path) -> None:
    branched.write(".gitignore", "*.o\n")
    ran = client("check", "--base", "main", PATH=str(tmp_path))
    assert (ran.returncode, ran.stdout) == (2, "") and ran.stderr == "cqd-client: git is needed to find what has changed: install it\n"


def test_hostile_names_and_lines(client: Client, branched: Repository) -> None:
    names = ["my file.c", "tab\there.c", 'quo"te.c', "bäck\\slash.c", "-dash.c", "b/b.c", "+++ b"]
    for name in names:
        branched.write(f"odd/{name}", "++ b/src/old1.c\n-- a/src/old1.c\n@@ -1 +1 @@\n")
    branched.commit()
    branched.git("branch", "-f", "main")
    for name in names:
        branched.write(f"odd/{name}", "++ b/src/old1.c\n++ b/src/old2.c\n@@ -1,9 +1,9 @@\n")
    branched.write("odd/new file.c", lines_of("new"))
    branched.commit()
    ran = client("check", "--base", "main", "--exclude", "odd/tab*")
    assert ran.returncode == 1 and ran.stdout.startswith("odd/new file.c:1: ")
    assert len([line for line in ran.stdout.splitlines() if line.startswith(("src/", "odd/"))]) == 1


def test_settings_of_a_user_change_nothing(client: Client, branched: Repository) -> None:
    for name, value in (("diff.noprefix", "true"), ("diff.mnemonicPrefix", "true"), ("color.ui", "always"), ("diff.context", "9"),
                        ("diff.external", "false"), ("diff.renames", "copies"), ("core.quotePath", "true"), ("diff.srcPrefix", "x/")):
        branched.git("config", name, value)
    branched.write("src/neü.c", lines_of("new"))
    branched.commit()
    ran = client("check", "--base", "main")
    assert ran.returncode == 1 and ran.stdout.startswith("src/neü.c:1: ")


@pytest.mark.parametrize("attributes", ["*.c -diff", "*.c binary", "*.c diff=hidden", "unique.c filter=hidden"])
def test_no_attribute_hides_a_change(client: Client, branched: Repository, attributes: str) -> None:
    for name, value in (("diff.hidden.command", "true"), ("diff.hidden.textconv", "true"), ("diff.hidden.binary", "true"),
                        ("filter.hidden.clean", "head -n 2")):
        branched.git("config", name, value)
    branched.write(".gitattributes", attributes + "\n")
    branched.write("src/unique.c", "int unique;\n" + lines_of("new"))
    branched.commit()
    ran = client("check", "--base", "main")
    assert ran.returncode == 1 and ran.stdout.startswith("src/unique.c:2: ")


def test_lines_are_counted_as_the_server_does(client: Client, branched: Repository) -> None:
    """In UTF-16 the character \u010a has the byte of a line feed, so git's numbers of the lines after it are too large."""
    text = "char *s = \"" + "\u010a" * 30 + "\";\nint unique;\n"
    branched.write("src/wide.c", text.encode("utf-16"))
    branched.commit()
    branched.git("branch", "-f", "main")
    branched.write("src/wide.c", (text + lines_of("new")).encode("utf-16"))
    assert client("check", "--base", "main").returncode == 1
    branched.write("src/wide.c", (text + lines_of("new")).replace("\n", "\r").encode())
    assert client("check", "--base", "main").returncode == 1


def test_only_a_changed_file_fails_on_fault(client: Client, branched: Repository) -> None:
    branched.write("src/A.java", "class A {\nString s = \"open;\n}\n")
    branched.commit()
    branched.git("branch", "-f", "main")
    branched.write("src/fine.c", "int fine;\n")
    ran = client("check", "--base", "main", "--fail-on", "fault")
    assert ran.returncode == 0 and "src/A.java:2: byte" in ran.stderr
    branched.write("src/A.java", "class A {\nString s = \"opened;\n}\n")
    for more, said in (((), "ERROR"), (("--json",), '"verdict": "ERROR"')):
        ran = client("check", "--base", "main", "--fail-on", "fault", *more)
        assert ran.returncode == 1 and said in ran.stdout


def test_a_file_that_git_lists_and_that_is_missing_is_told(client: Client, branched: Repository) -> None:
    (branched.folder / "src" / "old2.c").unlink()
    ran = client("check", "--base", "main")
    assert ran.returncode == 0 and "1 file that git lists is not in the work tree, the first is src/old2.c" in ran.stderr


def test_a_changed_file_that_is_left_out_is_not_passed(client: Client, branched: Repository) -> None:
    branched.write("src/latin.c", b"char *s = \"\xe4\";\n")
    assert client("check", "--base", "main").returncode == 2
    assert client("check", "--base", "main", "--exclude", "latin.c").returncode == 0


def test_a_branch_is_not_uploaded_to_the_server_of_the_configuration(client: Client, branched: Repository) -> None:
    branched.write(".cqd.toml", "addr = ['127.0.0.1:1']\nproject = 'shop'\n")
    branched.write("src/new.c", lines_of("new"))
    assert client("check", "--base", "main", CQD_ADDR="127.0.0.1:2").returncode == 1
    ran = client("check", "--base", "main", "--addr", "127.0.0.1:3")
    assert ran.returncode == 2 and "127.0.0.1:3 can't be reached" in ran.stderr


def test_formats_and_page_of_a_check(client: Client, branched: Repository) -> None:
    branched.write("src/new.c", lines_of("new"))
    ran = client("check", "--base", "main", "--format", "sarif", "--output", "out.sarif", "--format", "gitlab", "--output", "out.json")
    assert ran.returncode == 1 and ran.stdout.startswith("ERROR")
    results = json.loads((branched.folder / "out.sarif").read_text())["runs"][0]["results"]
    assert results and all("src/new.c" in json.dumps(result) for result in results)


def test_lines() -> None:
    lines = Lines([(3, 4), (10, 10)], [6])
    assert lines.count == 3
    assert [lines.meet(*span) for span in ((1, 2), (1, 3), (4, 9), (5, 6), (6, 7), (7, 9), (10, 12))] == \
        [False, True, True, False, True, False, True]
    assert lines.within([(4, 20), (3, 3), (4, 4)]) == 3


def test_diff() -> None:
    diff = b"--- a/x\n+++ b/x\n@@ -1 +1,2 @@ f\n-a\n+++ b/y\n+@@ -1 +1 @@\n\\ No newline at end of file\n@@ -9,2 +9,0 @@\n-c\n-d\n"
    diff += b"--- /dev/null\n+++ b/a b\t\n@@ -0,0 +1 @@\n+z\n--- a/gone\n+++ /dev/null\n@@ -1 +0,0 @@\n-z\n"
    assert read_diff(diff.splitlines(keepends=True)) == {"x": Lines([(1, 2)], [9]), "a b": Lines([(1, 1)], [])}
