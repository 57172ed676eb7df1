"""The help of the program: whole, as `mctpctl_command_line/src/help.rt` and clap's layout have it; its examples run."""
import os
import re
import tempfile

from support import programs
from support.examples import ROOT

ABOUT = {
    "answer": "Answers the packets of a capture as the described device does",
    "run": "Runs requesters and the described device over a schedule of what is delivered",
    "show": "Shows the packets of a capture and the messages that they complete",
}
SERVES = "Serves the described device on a serial line, standard input and output"
ON_A_LINE = {
    "ask": "Asks a device on a serial line, and prints its answers",
    "walk": "Asks a device on a serial line for all that it has, and prints a table of it",
    "watch": "Reads the sensors and effecters of a device on a serial line again and again",
    "assign": "Gives the device at the other end of a serial line an endpoint ID",
    "update": "Brings a firmware update to a device on a serial line",
}
TOP_OPTIONS = "Options:\n  -h, --help     Print help\n  -V, --version  Print version\n"


def constants():
    """The texts of the source file, by their names."""
    with open(os.path.join(ROOT, "crates", "mctpctl_command_line", "src", "help.rt")) as source:
        found = re.findall(r'pub const (\w+): &str =\s+"(?:\\\n)?(.*?)";', source.read(), re.S)
    return {name: text.replace('\\"', '"').replace("\\n", "\n") for name, text in found}


def examples_in(text):
    """The indented runs of lines, without their indent."""
    runs = re.findall(r"(?:^  .*\n|^\n(?=  ))+", text + "\n", re.M)
    return [re.sub(r"^  ", "", run.strip("\n"), flags=re.M) + "\n" for run in runs]


def options_of(texts, subcommand):
    """The options of a subcommand that takes a text, in a column as wide as the longest."""
    found = [("--explain", texts["EXPLAIN"])]
    if subcommand == "show":
        found += [("--decode", texts["DECODE"]), (f"--binding <{texts['BINDINGS']}>", texts["BINDING"])]
    width = 2 + max(len(option) for option, _ in found)
    lines = "".join(f"      {option:<{width}}{about}\n" for option, about in found)
    return f"Options:\n{lines}  -h, {'--help':<{width}}Print help\n"


def whole(texts):
    """Each command line that asks for help, and all that is to be written for it."""
    commands = "".join(f"  {name:<8}{about}\n" for name, about in {**ABOUT, "serve": SERVES, **ON_A_LINE}.items())
    commands += "  help    Print this message or the help of the given subcommand(s)\n"
    first = "PLDM over MCTP: captures, a simulated device, and a requester on a serial line\n\n"
    first += "Usage: mctpctl <COMMAND>\n\n"
    top = f"{first}Commands:\n{commands}\n{TOP_OPTIONS}\n{texts['STATUSES']}\n"
    yield ["--version"], f"mctpctl {texts['VERSION']}\n"
    yield ["-V"], f"mctpctl {texts['VERSION']}\n"
    yield ["--help"], top
    yield ["-h"], top
    yield ["help"], top
    for name, about in ABOUT.items():
        flags = options_of(texts, name)
        page = f"{about}\n\nUsage: mctpctl {name} [OPTIONS]\n\n{flags}\n{texts[name.upper()]}\n"
        yield [name, "--help"], page
        yield ["help", name], page
    options = (("--device <FILE>", "DEVICE"), ("--log <FILE>", "LOG"), ("--verbose", "VERBOSE"))
    options += (("--faults <FAULTS>", "FAULTS"), ("--explain", "EXPLAIN"), ("--firmware <FILE>", "FIRMWARE"))
    options += (("--agent <EID>", "AGENT"), ("--lifetime <MS>", "PIECE_LIFETIME"))
    width = 2 + max(len(option) for option, _ in options)
    flags = "".join(f"      {option:<{width}}{texts[name]}\n" for option, name in options)
    flags += f"  -h, {'--help':<{width}}Print help\n"
    page = f"{SERVES}\n\nUsage: mctpctl serve [OPTIONS] --device <FILE>\n\nOptions:\n{flags}\n{texts['SERVE']}\n"
    yield ["serve", "--help"], page
    yield ["help", "serve"], page
    for name in ON_A_LINE:
        yield [name, "--help"], help_on_a_line(texts, name)
        yield ["help", name], help_on_a_line(texts, name)


# The options of what asks on a line, and those of each subcommand, with the texts of the source file that say what they
# are.
LINKED = (
    ("--line <PATH>", "LINE"),
    ("--own <EID>", "OWN"),
    ("--device <EID>", "ASKED"),
    ("--keep <MS>", "KEEP"),
    ("--timeout <MS>", "TIMEOUT"),
    ("--tries <N>", "TRIES"),
    ("--lifetime <MS>", "LIFETIME"),
    ("--window <N>", "WINDOW"),
    ("--state <FILE>", "STATE"),
    ("--no-state", "NO_STATE"),
)
ASKED = {
    "ask": (("--hex", "HEX"), ("--file <FILE>", "COMMANDS")),
    "walk": (("--records <FILE>", "RECORDS"),),
    "watch": (("--every <MS>", "EVERY"), ("--count <N>", "COUNT"), ("--log <FILE>", "READINGS")),
    "assign": (),
    "update": (
        ("--component <COMPONENT>", "COMPONENT"),
        ("--image-version <TEXT>", "IMAGE_VERSION"),
        ("--dry-run", "DRY_RUN"),
    ),
}
WORDS = {"ask": ("[COMMAND]...", "COMMAND"), "update": ("<IMAGE>", "IMAGE")}


def help_on_a_line(texts, name):
    """Its options, whose column is as wide as the longest; before them the words of `ask` and of `update`."""
    options = (*LINKED, *ASKED[name])
    width = 2 + max(len(option) for option, _ in options)
    flags = "".join(f"      {option:<{width}}{texts[key]}\n" for option, key in options)
    flags += f"  -h, {'--help':<{width}}Print help\n"
    words, usage = "", f"Usage: mctpctl {name} [OPTIONS] --own <EID> --device <EID>"
    if name in WORDS:
        word, key = WORDS[name]
        words, usage = f"Arguments:\n  {word}  {texts[key]}\n\n", f"{usage} {word}"
    return f"{ON_A_LINE[name]}\n\n{usage}\n\n{words}Options:\n{flags}\n{texts[name.upper()]}\n"


def served(rows, program, device, text):
    """The frames in the help of `serve`, which stand there in hex."""
    asked, answered = (bytes.fromhex(example) for example in examples_in(text)[:2])
    with tempfile.NamedTemporaryFile("w", suffix=".toml") as file:
        file.write(device)
        file.flush()
        ran = programs.run([program, "serve", "--device", file.name], input=asked)
    rows.check("the example in the help of serve", (ran.returncode, ran.stdout) == (0, answered), repr(ran))


def toolchain(rows, version):
    """The version and the README name one toolchain, and its logic is that of the one that is here."""
    named = re.search(r"\((.* logic (\w+))\)$", version)
    with open(os.path.join(ROOT, "README.md")) as text:
        well = named is not None and f"`{named[1]}`" in text.read()
    rows.check("the version names the README's toolchain", well, version)
    kit = programs.run(["rt", "version"], text=True).stdout.strip()
    rows.check("the version names the toolchain's logic", named is not None and kit.endswith(f" logic {named[2]}"), kit)


def commands_in(text):
    """The names of the commands in a text that lists them with their words, as `COMMAND is gettid, settid N, ..`."""
    listed = " ".join(re.search(r"^COMMAND is (.*?)\.\s", text, re.M | re.S)[1].split())
    return [item.split()[0] for item in re.split(r", | or ", listed)]


def commands(rows, run, texts, device):
    """The help of `run` and of `ask`, the man page, and what `--explain` expects list the same commands."""
    with open(os.path.join(ROOT, "docs", "mctpctl.1")) as text:
        listed = {"the man page": commands_in(text.read())}
    listed |= {f"the help of {name}": commands_in(texts[name.upper()]) for name in ("run", "ask")}
    ran = run(["run", "--explain"], f"{device}%%\nrequester 8 timeout 200 tries 3\nat 0 open 8 nothing\n")
    expected = re.findall(r"'(\w+)'", ran.stderr.decode().partition("expected")[2])
    for place, names in listed.items():
        rows.equal(f"the commands of {place}", names, expected)


def check(rows, run, program):
    """Checks each row; `run(arguments, text)` runs the program, whose name is None where `serve` cannot be run."""
    texts = constants()
    for arguments, text in whole(texts):
        ran = run(arguments, "")
        well = (ran.returncode, ran.stdout.decode(), ran.stderr) == (0, text, b"")
        rows.check(f"the whole help of {arguments}", well, repr(ran.stdout[:80]))
    toolchain(rows, texts["VERSION"])
    given, answered = examples_in(texts["ANSWER"])[:2]
    device = given[: given.index("%%")]
    _, schedule, report = examples_in(texts["RUN"])[:3]
    capture, shown = examples_in(texts["SHOW"])[:2]
    described = f"{device}%%\n{schedule}"
    for name, text, want in (("answer", given, answered), ("run", described, report), ("show", capture, shown)):
        ran = run([name], text)
        rows.check(f"the example in the help of {name}", ran.stdout.decode() == want, repr(ran.stdout[:80]))
    commands(rows, run, texts, device)
    if program:
        served(rows, program, device, texts["SERVE"])
