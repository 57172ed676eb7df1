"""What a shell completes after `mctpctl`: one table, and the files for bash, zsh and fish that are made of it.

`tests/check_release` compares the table with `mctpctl --help`.
"""

from collections import namedtuple

# An option: its name; what follows it: nothing, a path, what the user types himself, or one of some words; what it is
# for; and its letter, where it has one.
Option = namedtuple("Option", "name value about letter", defaults=(None,))

FILE = "FILE"
HELP = Option("--help", None, "Print help", "h")

ON_A_LINE = [
    Option("--line", FILE, "The terminal to ask on"),
    Option("--own", "EID", "The endpoint ID that asks"),
    Option("--device", "EID", "The endpoint ID of the device"),
    Option("--keep", "MS", "The keeping time of the device"),
    Option("--timeout", "MS", "How long a try waits for an answer"),
    Option("--tries", "N", "How often a request is sent at most"),
    Option("--lifetime", "MS", "How late a packet of a request may still come"),
    Option("--window", "N", "For how many instance IDs the device keeps answers"),
    Option("--state", FILE, "Keep in this file when requests were opened"),
    Option("--no-state", None, "Keep nothing, and wait first"),
]
EXPLAIN = Option("--explain", None, "Say more of a refused input")

# Each subcommand, what it does, and its options.
SUBCOMMANDS = {
    "answer": ("Answer the packets of a capture as a device", [EXPLAIN]),
    "run": ("Run requesters and a device over a schedule", [EXPLAIN]),
    "show": (
        "Show the packets of a capture",
        [
            EXPLAIN,
            Option("--decode", None, "Show the fields by name"),
            Option("--binding", ["i2c", "i3c", "serial"], "Read each line as a frame of this bus"),
        ],
    ),
    "serve": (
        "Serve a device on a serial line",
        [
            Option("--device", FILE, "The description of the device"),
            Option("--log", FILE, "Write a capture to this file"),
            Option("--verbose", None, "Say what is dropped, and why"),
            Option("--faults", "SEED,LOSE,REPEAT,DELAY", "Lose, repeat and delay frames"),
            EXPLAIN,
            Option("--firmware", FILE, "Take firmware updates into this file"),
            Option("--agent", "EID", "The endpoint ID of the update agent"),
            Option("--lifetime", "MS", "How late a packet of a request for a piece may come"),
        ],
    ),
    "ask": (
        "Ask a device on a serial line",
        [
            *ON_A_LINE,
            Option("--hex", None, "Print answers as bytes in hex"),
            Option("--file", FILE, "Ask the commands on the lines of this file"),
        ],
    ),
    "walk": (
        "Ask a device for all that it has",
        [*ON_A_LINE, Option("--records", FILE, "Write the records to this file")],
    ),
    "watch": (
        "Read sensors and effecters again and again",
        [
            *ON_A_LINE,
            Option("--every", "MS", "How long a period is"),
            Option("--count", "N", "How many periods there are"),
            Option("--log", FILE, "Write the readings to this file"),
        ],
    ),
    "assign": ("Give a device an endpoint ID", ON_A_LINE),
    "update": (
        "Bring a firmware update to a device",
        [
            *ON_A_LINE,
            Option("--component", "CLASSIFICATION:IDENTIFIER:INDEX", "The component of an image"),
            Option("--image-version", "TEXT", "The version of an image"),
            Option("--dry-run", None, "Transfer nothing"),
        ],
    ),
    "help": ("Print help of a subcommand", []),
}
TOP = [HELP, Option("--version", None, "Print the version", "V")]

# The commands that `ask` takes, as a schedule has them.
COMMANDS = [
    *["gettid", "settid", "getversion", "gettypes", "getcommands", "sensor", "statesensors", "setnum", "getnum"],
    *["setstate", "getstate", "pdrinfo", "getpdr"],
]


def options_of(subcommand):
    """The options that may follow a subcommand, `--help` the last."""
    options = SUBCOMMANDS[subcommand][1]
    return [*options, HELP] if subcommand != "help" else []


def spellings(options):
    """The words of options, with their letters."""
    return [word for option in options for word in ([f"-{option.letter}"] if option.letter else []) + [option.name]]


def words_after(subcommand):
    """The words that may follow a subcommand, beside its options."""
    return {"ask": COMMANDS, "help": [name for name in SUBCOMMANDS if name != "help"]}.get(subcommand, [])


def every_option():
    """Each option with a value once, by its name and value, in order."""
    found = {}
    for subcommand in SUBCOMMANDS:
        for option in options_of(subcommand):
            if option.value is not None:
                found[f"{subcommand} {option.name}"] = option.value
    return found


def bash():
    """The file for bash."""
    cases = []
    for subcommand in SUBCOMMANDS:
        words = " ".join([*spellings(options_of(subcommand)), *words_after(subcommand)])
        cases.append(f"    {subcommand}) words='{words}' ;;")
    values = []
    for place, value in every_option().items():
        if value == FILE:
            does = "COMPREPLY=($(compgen -f -- \"$word\"))"
        elif isinstance(value, list):
            does = f"COMPREPLY=($(compgen -W '{' '.join(value)}' -- \"$word\"))"
        else:
            does = "COMPREPLY=()"
        values.append(f"    '{place}') {does}; return ;;")
    first = " ".join([*SUBCOMMANDS, *spellings(TOP)])
    return f"""# bash completion for mctpctl

_mctpctl() {{
    local word=${{COMP_WORDS[COMP_CWORD]}} subcommand=${{COMP_WORDS[1]}} words
    if [ "$COMP_CWORD" -eq 1 ]; then
        COMPREPLY=($(compgen -W '{first}' -- "$word"))
        return
    fi
    case "$subcommand ${{COMP_WORDS[COMP_CWORD - 1]}}" in
{chr(10).join(values)}
    esac
    case $subcommand in
{chr(10).join(cases)}
    *) words= ;;
    esac
    COMPREPLY=($(compgen -W "$words" -- "$word"))
}}
complete -o filenames -F _mctpctl mctpctl
"""


def in_zsh(option):
    """An option as `_arguments` takes it."""
    if option.letter:
        both = f"-{option.letter} {option.name}"
        return f"'({both})'{{{both.replace(' ', ',')}}}'[{option.about}]'"
    if option.value is None:
        return f"'{option.name}[{option.about}]'"
    if option.value == FILE:
        return f"'{option.name}=[{option.about}]:file:_files'"
    if isinstance(option.value, list):
        return f"'{option.name}=[{option.about}]:value:({' '.join(option.value)})'"
    return f"'{option.name}=[{option.about}]:{option.value}: '"


def zsh():
    """The file for zsh."""
    listed = "\n".join(f"    '{name}:{about}'" for name, (about, _) in SUBCOMMANDS.items())
    cases = []
    for subcommand in SUBCOMMANDS:
        lines = [in_zsh(option) for option in options_of(subcommand)]
        words = words_after(subcommand)
        if words:
            lines.append(f"'*:word:({' '.join(words)})'")
        arguments = " \\\n            ".join(lines)
        cases.append(f"    {subcommand})\n        _arguments \\\n            {arguments}\n        ;;")
    return f"""#compdef mctpctl

local -a subcommands
subcommands=(
{listed}
)
if (( CURRENT == 2 )); then
    _describe subcommand subcommands
    _arguments {' '.join(in_zsh(option) for option in TOP)}
    return
fi
local subcommand=$words[2]
shift words
(( CURRENT-- ))
case $subcommand in
{chr(10).join(cases)}
esac
"""


def in_fish(option):
    """The words of `complete` for an option."""
    words = ["-s", option.letter] if option.letter else []
    words += ["-l", option.name.removeprefix("--")]
    if option.value == FILE:
        words += ["-r", "-F"]
    elif isinstance(option.value, list):
        words += ["-x", "-a", f"'{' '.join(option.value)}'"]
    elif option.value:
        words.append("-x")
    return f"{' '.join(words)} -d '{option.about}'"


def fish():
    """The file for fish."""
    lines = ["# fish completion for mctpctl", "", "complete -c mctpctl -f"]
    lines += [f"complete -c mctpctl -n __fish_use_subcommand {in_fish(option)}" for option in TOP]
    for name, (about, _) in SUBCOMMANDS.items():
        lines.append(f"complete -c mctpctl -n __fish_use_subcommand -a {name} -d '{about}'")
    for name in SUBCOMMANDS:
        seen = f"'__fish_seen_subcommand_from {name}'"
        lines += [f"complete -c mctpctl -n {seen} {in_fish(option)}" for option in options_of(name)]
        if words_after(name):
            lines.append(f"complete -c mctpctl -n {seen} -a '{' '.join(words_after(name))}'")
    return "\n".join(lines) + "\n"


# Where each shell looks below a prefix, and what makes its file. Debian's zsh has a folder of its own.
FILES = {
    "share/bash-completion/completions/mctpctl": bash,
    "share/zsh/site-functions/_mctpctl": zsh,
    "share/fish/vendor_completions.d/mctpctl.fish": fish,
}
