"""Whether the `console` blocks of the pages show what the program prints. docs/TESTING.md says how a block says its input."""

import os
import re
import shutil
import subprocess
import tempfile

CAT = re.compile(r"^cat ([\w.-]+)$")
# Commands that not every machine has. A block with one that is not here is left out.
TOOLS = re.compile(r"\b(cc|git|jq|make|perl|python3|xargs)\b")


def compare(report, root, pages, program):
    for page in pages:
        with tempfile.TemporaryDirectory() as folder:
            shutil.copytree(os.path.join(root, "examples"), os.path.join(folder, "examples"))
            for block in page.blocks:
                if block.language == "console":
                    commands = list(commands_of(block))
                    if has_tools(page.where(block.number), [command for command, _, _ in commands]):
                        for command, number, shown in commands:
                            compare_command(report, page, program, folder, command, number, shown)


def has_tools(where, commands):
    """Whether all that the commands need is here; else it says what is left out."""
    lacking = sorted({tool for command in commands for tool in TOOLS.findall(command) if not shutil.which(tool)})
    if lacking:
        print(f"{where}: left out, since there is no {' and no '.join(lacking)}")
    return not lacking


def commands_of(block):
    """Each command of a block, its line, and what is shown below it."""
    command, number, shown = None, 0, []
    for line in block.lines:
        if line.text.startswith("$ "):
            if command is not None:
                yield command, number, shown
            command, number, shown = line.text[2:], line.number, []
        elif line.text.startswith("> ") and command is not None and not shown:
            command += "\n" + line.text[2:]
        else:
            shown.append(line.text)
    if command is not None:
        yield command, number, shown


def compare_command(report, page, program, folder, command, number, shown):
    """Runs a command where those before it on its page were run."""
    wanted = "".join(line + "\n" for line in shown)
    file = CAT.match(command)
    if file and not os.path.exists(os.path.join(folder, file.group(1))):
        with open(os.path.join(folder, file.group(1)), "w", encoding="utf-8") as made:
            made.write(wanted)
        return
    found = output_of(command, program, folder)
    if found and not found.endswith("\n"):
        found += "\n"
    report.expect(found == wanted, page.where(number), f"{command}\nprints\n{found}and not\n{wanted}")


def run(command, program, folder):
    """What a shell in this folder makes of a command, with the program on its path."""
    path = os.path.dirname(program) + os.pathsep + os.environ["PATH"]
    environment = dict(os.environ, PATH=path, LC_ALL="C", TMPDIR=folder, HOME=folder)
    return subprocess.run(
        ["sh", "-c", command],
        cwd=folder,
        env=environment,
        stdin=subprocess.DEVNULL,
        stdout=subprocess.PIPE,
        stderr=subprocess.STDOUT,
        timeout=120,
    )


def output_of(command, program, folder):
    return run(command, program, folder).stdout.decode("utf-8", "backslashreplace")
