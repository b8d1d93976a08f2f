"""Whether the `sh` blocks of the pages run as they are, in a fresh clone, with an empty environment. docs/TESTING.md says how."""

import os
import re
import shutil
import subprocess
import tempfile

from console import has_tools

CLONE = "git clone URL bibkeep"
# What stands for something else, and what proves.
LEFT_OUT = re.compile(r"\b(COMMIT|OLD|NEW)\b|\brt\b|tools/build|--prove|\./test\b")
ENVIRONMENT = {"PATH": "/usr/bin:/bin"}
IDENTITY = {name: "nobody" for name in ("GIT_AUTHOR_NAME", "GIT_AUTHOR_EMAIL", "GIT_COMMITTER_NAME", "GIT_COMMITTER_EMAIL")}
# The file with which a rule for `make` is tried, and the aux file beside it.
MADE = "refs.bib"
CITING = "paper.aux"
# Files that a rule may read before and after it.
OTHERS = ("strings.bib", "parents.bib")


def compare(report, root, pages):
    blocks = [(page, block) for page in pages for block in page.blocks if block.language in ("sh", "make") and is_to_be_run(page, block)]
    if not shutil.which("git"):
        print(f"{len(blocks)} blocks in sh and make are left out, since there is no git")
        return
    with tempfile.TemporaryDirectory(prefix="bibkeep-clone-") as folder:
        repository = os.path.join(folder, "repository")
        lay_repository(root, repository)
        clone = Clone(repository, folder)
        for page, block in blocks:
            compare_block(report, page, block, repository, clone, folder)


def is_to_be_run(page, block):
    lines = [line.text for line in block.lines]
    if any(LEFT_OUT.search(line) for line in lines):
        print(f"{page.where(block.number)}: left out, since it needs the toolchain, or a word stands for another")
        return False
    return has_tools(page.where(block.number), lines + ["make"] * (block.language == "make"))


def lay_repository(root, repository):
    """Makes a repository with one commit of what is in this tree and not ignored."""
    git = ["git", f"--git-dir={repository}"]
    subprocess.run([*git, "init", "-q"], check=True)
    for words in (["add", "-A"], ["commit", "-qm", "all"], ["repack", "-adq"]):
        subprocess.run([*git, f"--work-tree={root}", *words], cwd=root, env=dict(ENVIRONMENT, HOME=repository, **IDENTITY), check=True)


def run_block(text, repository, folder):
    """Runs a block that clones, in an empty folder."""
    home, start = (tempfile.mkdtemp(dir=folder) for _ in range(2))
    return run(["sh", "-e", "-c", text.replace(CLONE, f"git clone -q '{repository}' bibkeep")], start, dict(ENVIRONMENT, HOME=home))


class Clone:
    """A clone in which the program is installed."""

    def __init__(self, repository, folder):
        self.path, home = os.path.join(folder, "clone"), os.path.join(folder, "home")
        os.mkdir(home)
        self.environment = {"PATH": f"{home}/.local/bin:{ENVIRONMENT['PATH']}", "HOME": home}
        for words, place in ((["git", "clone", "-q", repository, self.path], folder), (["./install"], self.path)):
            subprocess.run(words, cwd=place, env=self.environment, stdout=subprocess.DEVNULL, stderr=subprocess.DEVNULL, check=True)

    def run(self, *words):
        return run(words, self.path, self.environment)


def compare_block(report, page, block, repository, clone, folder):
    text = "".join(line.text + "\n" for line in block.lines)
    if block.language == "make":
        compare_rule(report, page, block, text, clone)
        return
    ran = run_block(text, repository, folder) if CLONE in text else clone.run("sh", "-e", "-c", text)
    # grep ends with 1 where it prints nothing
    wanted = (0, 1) if re.search(r"\| grep [^|]*$", text) else (0,)
    report.expect(ran.returncode in wanted, page.where(block.number), f"{text}ends with {ran.returncode} and says\n{ran.stdout}")


def compare_rule(report, page, block, text, clone):
    """The rules of a Makefile are met by a file without a finding, and fail on one; if they read an aux file, on a file without its key."""
    write(os.path.join(clone.path, "Makefile"), text)
    write(os.path.join(clone.path, CITING), "\\citation{a}\n")
    for other in OTHERS:
        write(os.path.join(clone.path, other), "")
    unmet = "@misc{b}\n" if CITING in text else "@misc{a, t = m}\n"
    for content, wanted in [("@misc{a}\n", 0), (unmet, 2)]:
        write(os.path.join(clone.path, MADE), content)
        ran = clone.run("make", "--always-make")
        report.expect(ran.returncode == wanted, page.where(block.number), f"{text}ends with {ran.returncode} and says\n{ran.stdout}")


def run(words, folder, environment):
    return subprocess.run(words, cwd=folder, env=environment, stdin=subprocess.DEVNULL, stdout=subprocess.PIPE, stderr=subprocess.STDOUT,
                          text=True, errors="replace", timeout=120)


def write(path, text):
    with open(path, "w", encoding="utf-8") as file:
        file.write(text)
