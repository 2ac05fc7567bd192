"""The shell parts of the templates for CI, run on a git repository that has a clean branch, and then a copy on it."""
from __future__ import annotations

import json
import os
import re
import shutil
import stat
import subprocess
import sys
from pathlib import Path
from typing import Any

import pytest

from conftest import CLIENT, Client, Repository, lines_of

yaml = pytest.importorskip("yaml", reason="python3-yaml is missing")
TEMPLATES = CLIENT / "ci"


class Runner:
    """A clone as a CI has it, of a repository whose branch `work` was pushed."""

    def __init__(self, origin: Repository, folder: Path, program: str) -> None:
        self.origin, self.folder = origin, folder
        subprocess.run(["git", "clone", "-q", "-b", "work", str(origin.folder), str(folder)], check=True)
        commands = folder.with_name("bin")
        commands.mkdir(exist_ok=True)
        command = commands / "cqd-client"
        command.write_text(f"#!/bin/sh\nexec {sys.executable} -m cqd_client \"$@\"\n")
        command.chmod(command.stat().st_mode | stat.S_IXUSR)
        self.environment = {**Client(folder, program).environment, "PATH": f"{commands}:{os.environ['PATH']}", "HOME": str(folder.parent)}

    def run(self, script: str, **variables: str) -> int:
        environment = {**self.environment, **variables}
        environment.pop("GIT_CONFIG_GLOBAL")
        return subprocess.run(["bash", "-e", "-o", "pipefail", "-c", script], cwd=self.folder, env=environment, check=False).returncode


@pytest.fixture
def runners(tmp_path: Path, program: str) -> tuple[Runner, Runner]:
    """One whose branch is clean, and one whose branch has a copy of old code."""
    made = []
    for name in ("clean", "copy"):
        origin = Repository(tmp_path / name / "origin")
        # old code is duplicated in less than the three percent that the templates ask for
        origin.write("src/old.c", lines_of("old"))
        origin.write("src/large.c", "".join(f"int v{i};\n" for i in range(2000)))
        origin.commit()
        origin.git("checkout", "-q", "-b", "work")
        origin.write("src/new.c", lines_of("copied", 400, 1) + lines_of("again", 400, 1) if name == "copy" else "int something;\n")
        origin.commit()
        made.append(Runner(origin, tmp_path / name / "clone", program))
    return made[0], made[1]


def steps_of_github() -> dict[str, Any]:
    return {step.get("name", step.get("uses")): step for step in yaml.safe_load((TEMPLATES / "github.yml").read_text())["jobs"]["cqd"]["steps"]}


@pytest.mark.skipif(not shutil.which("curl"), reason="curl is missing")
def test_both_packages_are_installed(tmp_path: Path) -> None:
    packages = [tmp_path / "from" / name for name in ("cqd-client_1.0+2-1_all.deb", "cqd_1.0+2-1_amd64.deb")]
    for package in packages:
        package.parent.mkdir(exist_ok=True)
        package.write_text(package.name)
    commands = tmp_path / "bin"
    commands.mkdir()
    (commands / "sudo").write_text('#!/bin/sh\nexec "$@"\n')
    (commands / "apt-get").write_text(f'#!/bin/sh\necho "$@" >>{tmp_path}/installed\n')
    for command in commands.iterdir():
        command.chmod(0o755)
    of_gitlab = "\n".join(yaml.safe_load((TEMPLATES / "gitlab.yml").read_text())[".cqd"]["before_script"])
    scripts = {"github": steps_of_github()["Install cqd"]["run"], "gitlab": of_gitlab.replace("/tmp/", f"{tmp_path}/gitlab/")}
    for folder, script in scripts.items():
        (tmp_path / folder).mkdir()
        environment = {"PATH": f"{commands}:{os.environ['PATH']}", "RUNNER_TEMP": str(tmp_path / folder)}
        for missing, expected in ((".none", False), ("", True)):
            urls = " ".join(package.as_uri() for package in (Path(f"{packages[0]}{missing}"), packages[1]))
            ran = subprocess.run(["bash", "-e", "-c", script], env={**environment, "CQD_PACKAGES": urls}, check=False)
            assert (ran.returncode == 0) == expected
        installed = (tmp_path / "installed").read_text().splitlines()[-1].split()[-2:]
        assert all(Path(name).parent == tmp_path / folder and name.endswith(".deb") for name in installed)
        assert [Path(name).read_text() for name in installed] == [package.name for package in packages]


def test_github(runners: tuple[Runner, Runner]) -> None:
    steps = steps_of_github()
    for runner, expected in zip(runners, (0, 1)):
        summary = runner.folder.parent / "summary"
        assert runner.run(steps["Check what changed"]["run"], BASE="origin/main", GITHUB_STEP_SUMMARY=str(summary)) == expected
        sarif = json.loads((runner.folder / "cqd.sarif").read_text())
        assert bool(sarif["runs"][0]["results"]) == bool(expected)
        assert summary.read_text() and (runner.folder / "cqd.html").exists()
        assert runner.run(steps["Judge the branch"]["run"]) == expected
    assert runners[0].run(steps["Check what changed"]["run"], BASE="origin/nothing", GITHUB_STEP_SUMMARY="/dev/null") == 2


def test_gitlab(runners: tuple[Runner, Runner]) -> None:
    jobs = yaml.safe_load((TEMPLATES / "gitlab.yml").read_text())
    for runner, expected in zip(runners, (0, 1)):
        base = runner.origin.git("rev-parse", "main").strip()
        variables = {"CI_MERGE_REQUEST_DIFF_BASE_SHA": base, "CI_PROJECT_DIR": str(runner.folder)}
        assert runner.run("\n".join(jobs["duplicates of a merge request"]["script"]), **variables) == expected
        assert bool(json.loads((runner.folder / "cqd-quality.json").read_text())) == bool(expected)
        assert (runner.folder / "cqd-junit.xml").exists()
        assert runner.run("\n".join(jobs["duplicates of the branch"]["script"]), **variables) == expected
        assert (runner.folder / "cqd-metrics.txt").read_text()
    for job in jobs.values():
        for report in job.get("artifacts", {}).get("reports", {}).values():
            assert any(report in line for line in job["script"])


def test_jenkins(runners: tuple[Runner, Runner]) -> None:
    script = re.findall(r"sh '''(.*?)'''", (TEMPLATES / "Jenkinsfile").read_text(), re.DOTALL)
    assert len(script) == 1
    for runner, expected in zip(runners, (0, 1)):
        assert runner.run(script[0], CHANGE_TARGET="main") == expected
        assert ("<duplication" in (runner.folder / "cqd.xml").read_text()) == bool(expected)
        assert runner.run(script[0]) == expected


def test_pre_commit(runners: tuple[Runner, Runner]) -> None:
    hook = yaml.safe_load((TEMPLATES / "pre-commit.yaml").read_text())["repos"][0]["hooks"][0]
    runner = runners[0]
    assert runner.run(hook["entry"]) == 0
    (runner.folder / "src" / "added.c").write_text(lines_of("added"))
    assert re.search(hook["files"], "src/added.c")
    assert runner.run("git add -A; " + hook["entry"]) == 1


@pytest.mark.skipif(not shutil.which("pre-commit"), reason="pre-commit is missing")
def test_pre_commit_refuses_a_commit(runners: tuple[Runner, Runner]) -> None:
    runner = runners[0]
    shutil.copy(TEMPLATES / "pre-commit.yaml", runner.folder / ".pre-commit-config.yaml")
    assert runner.run("git config user.name a; git config user.email a@b; pre-commit install") == 0
    for text, expected in ((lines_of("added"), 1), ("int added;\n", 0)):
        (runner.folder / "src" / "added.c").write_text(text)
        assert runner.run("git add -A; git commit -q -m added") == expected
