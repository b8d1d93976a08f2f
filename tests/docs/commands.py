"""Whether the help texts, the manual page, the completions and docs/PROGRAM.md have the commands and options that the program has."""

import collections
import os
import re
import shutil
import subprocess
import tempfile

from console import has_tools, run

Command = collections.namedtuple("Command", "name about arguments options examples")

# What every program of clap has, and what every command has.
COMMON = {"help", "version", "hints"}


def compare(report, root, pages, program):
    top = help_of(program)
    commands = [command_of(program, name) for name, _ in listed(top)]
    abouts = dict(listed(top))
    compare_help(report, program, top, commands)
    compare_examples(report, root, program, top, commands)
    os.chdir(root)
    compare_manual(report, "man/bibkeep.1", commands)
    compare_bash(report, "completions/bibkeep.bash", commands)
    compare_zsh(report, "completions/_bibkeep", commands, abouts)
    compare_fish(report, "completions/bibkeep.fish", commands, abouts)
    compare_page(report, next(page for page in pages if page.path == "docs/PROGRAM.md"), commands)
    compare_lines(report, "man/bibkeep.1", pages, help_of(program, "edit"))


# ---- what the program says of itself


def help_of(program, *words):
    return subprocess.run([program, "help", *words], stdout=subprocess.PIPE, check=True).stdout.decode()


def listed(text):
    """The commands of a help text, with a line each."""
    lines = text.split("Commands:\n")[1].split("\n\n")[0].split("\n")
    return [tuple(line.split(None, 1)) for line in lines if line.split(None, 1)[0] != "help"]


def command_of(program, name):
    text = help_of(program, name)
    usage = re.search(r"^Usage: \S+ \S+(.*)$", text, re.M).group(1)
    arguments = re.findall(r"[<\[][A-Z]+[>\]](?:\.\.\.)?", usage.replace("[OPTIONS]", ""))
    options = set(re.findall(r"^\s+(?:-\w, )?--([\w-]+)", text, re.M)) - COMMON
    return Command(name, text.split("\n")[0], arguments, options, examples_of(text))


def examples_of(text):
    """The lines after `Example:` or `Examples:`."""
    found = re.search(r"^Examples?:\n((?:  .*\n?)+)", text, re.M)
    return [line.strip() for line in found.group(1).split("\n") if line.strip()] if found else []


# ---- the help texts


def compare_help(report, program, top, commands):
    """Help calls the program bibkeep, whatever file it was started as, and says that it edits."""
    report.expect(top.startswith("Edits "), "help", "it doesn't say that the program edits")
    with tempfile.TemporaryDirectory() as folder:
        other = os.path.join(folder, "another-name")
        shutil.copy(program, other)
        for words in [(), *((command.name,) for command in commands)]:
            report.expect(help_of(other, *words) == help_of(program, *words), "help " + " ".join(words), "it tells the name of the file")
            report.expect("Usage: bibkeep" in help_of(program, *words), "help " + " ".join(words), "it doesn't call the program bibkeep")


def compare_examples(report, root, program, top, commands):
    """Each command has examples, and they run."""
    with tempfile.TemporaryDirectory() as folder:
        lay_examples(os.path.join(root, "examples"), folder)
        for name, examples in [("", examples_of(top)), *((command.name, command.examples) for command in commands)]:
            where = f"help {name}".strip()
            report.expect(examples, where, "it has no example")
            for example in examples:
                if has_tools(where, [example]):
                    compare_example(report, where, example, program, folder)


def compare_example(report, where, example, program, folder):
    second = re.search(r"^bibkeep edit (\S+) remove (\w+),2$", example)
    if second:
        lay_second(second[1], second[2], program, folder)
    answer = run(example, program, folder)
    # diff ends with 1 where it shows a change
    wanted = 1 if re.search(r"(\||^bibkeep) diff [^|]*$", example) else 0
    report.expect(answer.returncode == wanted, where, f"{example}\nends with {answer.returncode} and says\n{answer.stdout.decode()}")


def lay_second(name, key, program, folder):
    """A second entry with this key. It is put in by hand, so that the journal of the examples before no longer fits."""
    with open(os.path.join(folder, name), "a", encoding="utf-8") as file:
        file.write(f"@misc{{{key}}}\n")
    run(f"bibkeep forget {name}", program, folder)


def lay_examples(examples, folder):
    """The files that the help texts speak of: those of the guide, with the first record of its RIS file, and six others."""
    for name in ("refs.bib", "old.bib", "base.bib", "theirs.bib"):
        shutil.copy(os.path.join(examples, "guide.bib"), os.path.join(folder, name))
    with open(os.path.join(folder, "theirs.bib"), "a", encoding="utf-8") as file:
        file.write("\n@misc{added, note = {By another}}\n")
    for name, text in (("strings.bib", "@string{jacm = {J. ACM}}\n"), ("parents.bib", "@proceedings{type90, year = 1990}\n"),
                       ("entry.bib", "@article{lamport78, title = {Time, Clocks}}\n")):
        with open(os.path.join(folder, name), "w", encoding="utf-8") as file:
            file.write(text)
    shutil.copy(os.path.join(examples, "paper.aux"), folder)
    with open(os.path.join(folder, "citation.ris"), "w", encoding="utf-8") as file:
        file.write(re.match(r"(?s).*?\nER  - \n", read(os.path.join(examples, "citation.ris"))).group(0))


# ---- the manual page

ITEM = re.compile(r"^\.It Cm (\w+) ?(.*)$", re.M)


def compare_manual(report, path, commands):
    text = read(path)
    items = list(ITEM.finditer(text))
    found = {item.group(1): item.group(2) for item in items}
    report.expect_same([command.name for command in commands] + ["help"], found, path, "commands")
    for command in commands:
        line = found.get(command.name, "")
        options = set(re.findall(r"Fl -([\w-]+)", line))
        report.expect_same(command.options, options, path, f"options of {command.name}")
        arguments = arguments_of(line)
        report.expect(arguments == command.arguments, path, f"{command.name} has the arguments {command.arguments} and not {arguments}")
    if shutil.which("mandoc"):
        lint = subprocess.run(["mandoc", "-T", "lint", path], stdout=subprocess.PIPE, stderr=subprocess.STDOUT)
        report.expect(not lint.stdout, path, lint.stdout.decode())


def arguments_of(line):
    """The arguments of a synopsis in mdoc, as help writes them."""
    line = re.sub(r"O[op] Fl -[\w-]+(?: Ar \w+)?(?: Oc)?", "", line)
    arguments = []
    for optional, name, more in re.findall(r"(Op )?Ar (\w+)( \.\.\.)?", line):
        arguments.append((f"[{name}]" if optional else f"<{name}>") + ("..." if more else ""))
    return arguments


# ---- completions


def compare_bash(report, path, commands):
    text = read(path)
    words = re.search(r"local commands='(.*)'", text).group(1).split()
    report.expect_same([command.name for command in commands] + ["help"], words, path, "commands")
    found = re.findall(r"^ +([\w| ]+)\) options='([^']*--help)'", text, re.M)
    arms = {name.strip(): arm for names, arm in found for name in names.split("|")}
    compare_options(report, path, commands, lambda name: options_in(arms.get(name, "")))
    if shutil.which("bash"):
        compare_answers(report, path, commands)


def compare_answers(report, path, commands):
    """What bash offers for a command, and for the options of each."""
    for words, wanted in [(["c"], {c.name for c in commands if c.name.startswith("c")})] + [
        ([command.name, "--"], {f"--{option}" for option in command.options} | {"--help", "--hints"}) for command in commands
    ]:
        line = " ".join(["bibkeep", *words])
        script = f"source '{path}'; COMP_LINE='{line}'; COMP_POINT={len(line)}; _bibkeep; printf '%s\\n' \"${{COMPREPLY[@]}}\""
        answer = subprocess.run(["bash", "-c", script], stdout=subprocess.PIPE, stderr=subprocess.STDOUT)
        report.expect_same(wanted, answer.stdout.decode().split(), path, " ".join(words))


def compare_zsh(report, path, commands, abouts):
    text = read(path)
    told = dict(re.findall(r"""^\s+['"]([a-z]\w*):(.*)['"]$""", text, re.M))
    compare_abouts(report, path, told, abouts)
    arms = {}
    for names, arm in re.findall(r"^ {12}   ?([\w| ]+)\)\s+((?:.|\n)*?);;", text, re.M):
        for name in names.split("|"):
            arms[name.strip()] = arm
    compare_options(report, path, commands, lambda name: options_in(arms.get(name, "")))
    check_syntax(report, "zsh", path)


def compare_fish(report, path, commands, abouts):
    text = read(path)
    told = dict(re.findall(r"^complete .*__fish_use_subcommand -a (\w+) -d '(.*)'$", text, re.M))
    compare_abouts(report, path, {name: about.replace("\\'", "'") for name, about in told.items()}, abouts)
    options = collections.defaultdict(set)
    for names, option in re.findall(r"__fish_seen_subcommand_from ([\w ]+)'.* -l ([\w-]+)", text):
        for name in names.split():
            options[name].add(option)
    compare_options(report, path, commands, lambda name: options[name] - COMMON)
    check_syntax(report, "fish", path)


def compare_abouts(report, path, told, abouts):
    told = {name: about for name, about in told.items() if name != "help"}
    report.expect_same(abouts, told, path, "commands")
    for name, about in told.items():
        report.expect(about == abouts.get(name), path, f"{name} is told as {about}, and in help as {abouts.get(name)}")


def compare_options(report, path, commands, options_of):
    for command in commands:
        report.expect_same(command.options, options_of(command.name), path, f"options of {command.name}")


def options_in(text):
    return set(re.findall(r"--([\w-]+)", text)) - COMMON


def check_syntax(report, shell, path):
    if shutil.which(shell):
        answer = subprocess.run([shell, "-n", path], stdout=subprocess.PIPE, stderr=subprocess.STDOUT)
        report.expect(answer.returncode == 0 and not answer.stdout, path, answer.stdout.decode())


# ---- docs/PROGRAM.md


def compare_page(report, page, commands):
    """Each command has a row in the table and a section, with its words as help writes them."""
    headings = [heading for heading, _ in page.sections()]
    told = {re.sub(r"`(\w+).*", r"\1", row.cells[0]) for row in page.rows() if row.header[0] == "Command"}
    report.expect_same([command.name for command in commands], told, page.path, "commands of the table")
    for command in commands:
        found = [heading for heading in headings if re.search(rf"`{command.name}\b", heading)]
        report.expect(found, page.path, f"it has no section on {command.name}")
        for option in command.options:
            report.expect(any(f"--{option}" in heading for heading in found), page.path, f"{command.name}: the heading lacks --{option}")


# ---- the lines of a script


def compare_lines(report, path, pages, text):
    """The lines that help lists are those of docs/PROGRAM.md, of the guide and of the manual page."""
    wanted = set(re.findall(r"^  ([a-z-]+(?: (?:[A-Z]+|\[[A-Z]+\]))*(?: \.\.)?)(?:  |$)", text, re.M))
    for page in pages:
        if page.path in ("docs/PROGRAM.md", "docs/GUIDE.md"):
            told = {row.cells[0].strip("`") for row in page.rows() if row.header[0] == "Line"}
            report.expect_same(wanted, told, page.path, "lines of a script")
    manual = re.findall(r"^\.It Li ([a-z-]+)(?: Ar ([A-Z ]+?))?(?: Op Ar ([A-Z]+))?( \.\.\.)?$", read(path), re.M)
    told = {
        " ".join(filter(None, (word, arguments, f"[{left_out}]" if left_out else "", ".." if more else "")))
        for word, arguments, left_out, more in manual
    }
    report.expect_same(wanted, told, path, "lines of a script")


def read(path):
    with open(path, encoding="utf-8") as file:
        return file.read()
