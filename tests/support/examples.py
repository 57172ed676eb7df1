"""The examples: where they are, and what is done with each."""
import os

ROOT = os.path.dirname(os.path.dirname(os.path.dirname(os.path.realpath(__file__))))
EXAMPLES = os.path.join(ROOT, "examples")

# What is done with an example, by the ending of its name.
SUBCOMMANDS = {".txt": "answer", ".schedule": "run", ".capture": "show"}


def text_of(name):
    """The text of a file of the examples."""
    with open(os.path.join(EXAMPLES, name)) as file:
        return file.read()


def bytes_of(name):
    with open(os.path.join(EXAMPLES, name), "rb") as file:
        return file.read()


def each_example():
    """The name of each example, the subcommand, and the bytes that it reads and has to write."""
    for name in sorted(os.listdir(EXAMPLES)):
        stem, ending = os.path.splitext(name)
        if ending in SUBCOMMANDS:
            yield name, SUBCOMMANDS[ending], bytes_of(name), bytes_of(f"{stem}.expected")


# The description that most tests use.
DEVICE = text_of("device.toml")
