"""Rows for `tests/check` and `tests/check_release`: what a shell completes after `mctpctl`, which the table of
`contrib/packaging/completions.py` says, is what `--help` lists. What a machine lacks is skipped by name."""
import os
import re
import shutil
import sys
import tempfile

from support.examples import ROOT
from support.programs import run

sys.path.insert(0, os.path.join(ROOT, "contrib", "packaging"))
import completions
import trees


def told(ran):
    return ((ran.stdout or b"") + (ran.stderr or b"")).decode(errors="replace")[-400:]


def skip(what, lacks):
    print(f"skipped: {what}, which needs {lacks}", flush=True)


def flags_in(page):
    """The flags that a page of help lists."""
    options = page.partition("\nOptions:\n")[2].partition("\n\n")[0]
    named = [re.match(r" +(?:(-\w), )?(--[a-z-]+)", line) for line in options.splitlines()]
    return {flag for found in named for flag in found.groups() if flag}


def values_in(page):
    """The flags that a page of help lists with a value."""
    return set(re.findall(r"^ +(?:-\w, )?(--[a-z-]+) <", page.partition("\nOptions:\n")[2].partition("\n\n")[0], re.M))


def check(rows, program):
    """The table has what `--help` lists, and each shell gets it."""
    page = run([program, "--help"]).stdout.decode()
    listed = re.findall(r"^  (\w+) ", page.partition("\nCommands:\n")[2].partition("\n\n")[0], re.M)
    rows.equal("the table has the subcommands of --help", sorted(completions.SUBCOMMANDS), sorted(listed))
    rows.equal("the table has the flags of --help", set(completions.spellings(completions.TOP)), flags_in(page))
    for name in listed:
        if name == "help":
            continue
        page = run([program, name, "--help"]).stdout.decode()
        table = completions.options_of(name)
        rows.equal(f"the table has the flags of {name} --help", set(completions.spellings(table)), flags_in(page))
        valued = {option.name for option in table if option.value is not None}
        rows.equal(f"the table has the values of {name} --help", valued, values_in(page))
    asked = run([program, "ask", "--help"]).stdout.decode()
    commands = " ".join(re.search(r"COMMAND is (.*?)\. ", asked, re.S)[1].split())
    words = [item.split()[0] for item in re.split(r", | or ", commands)]
    rows.equal("the table has the commands of ask", completions.COMMANDS, words)
    with tempfile.TemporaryDirectory() as room:
        list(trees.write(trees.completion_tree(), room))
        check_bash(rows, os.path.join(room, "share/bash-completion/completions/mctpctl"))
        check_zsh(rows, os.path.join(room, "share/zsh/site-functions/_mctpctl"))
        check_fish(rows, os.path.join(room, "share/fish/vendor_completions.d/mctpctl.fish"))


def wanted(name):
    """What is to be offered after a subcommand and a `-`."""
    return sorted(completions.spellings(completions.options_of(name)))


def check_bash(rows, file):
    """What bash offers."""
    def offered(*words):
        script = 'source "$1"; COMP_WORDS=("${@:2}"); COMP_CWORD=$(($# - 2)); _mctpctl; echo "${COMPREPLY[@]}"'
        return sorted(run(["bash", "-c", script, "bash", file, "mctpctl", *words]).stdout.decode().split())

    first = [*completions.SUBCOMMANDS, *completions.spellings(completions.TOP)]
    rows.equal("bash offers the subcommands", offered(""), sorted(first))
    for name in completions.SUBCOMMANDS:
        rows.equal(f"bash offers the flags of {name}", offered(name, "-"), wanted(name))
    rows.equal("bash offers the bindings", offered("show", "--binding", ""), ["i2c", "i3c", "serial"])
    rows.equal("bash offers the commands", offered("ask", "set"), ["setnum", "setstate", "settid"])
    rows.equal("bash offers nothing for a number", offered("ask", "--own", ""), [])


def check_zsh(rows, file):
    """What is in the file for zsh, which zsh reads."""
    text = trees.read(file).decode()
    for name in completions.SUBCOMMANDS:
        part = text.partition(f"    {name})\n")[2].partition(";;")[0]
        missing = [flag for flag in wanted(name) if flag not in part]
        rows.check(f"the file for zsh has {name} and its flags", part and not missing, " ".join(missing))
    if shutil.which("zsh"):
        ran = run(["zsh", "-n", file])
        rows.check("zsh reads its file", ran.returncode == 0, told(ran))
    else:
        skip("the file for zsh read", "zsh")


def check_fish(rows, file):
    """What fish offers; where there is no fish, what is in its file."""
    if not shutil.which("fish"):
        skip("what fish offers", "fish")
        text = trees.read(file).decode()
        for name in completions.SUBCOMMANDS:
            has = all(f"from {name}' -l {option.name[2:]}" in text for option in completions.SUBCOMMANDS[name][1])
            rows.check(f"the file for fish has {name} and its flags", has and f"-a {name} " in text)
        return

    def offered(line):
        ran = run(["fish", "--no-config", "-c", 'source $argv[1]; complete -C "$argv[2]"', file, line])
        return sorted(entry.split("\t")[0] for entry in ran.stdout.decode().splitlines())

    rows.equal("fish offers the subcommands", offered("mctpctl "), sorted(completions.SUBCOMMANDS))
    for name in completions.SUBCOMMANDS:
        rows.equal(f"fish offers the flags of {name}", offered(f"mctpctl {name} -"), wanted(name))
    rows.equal("fish offers the bindings", offered("mctpctl show --binding "), ["i2c", "i3c", "serial"])
