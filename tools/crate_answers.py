"""What the Rust crate answered for the modules that the tools make rows of, as the table tools/crate_answers.txt has it.

The answers were asked once, of a crate that isn't part of this repository; the head of the table names its version. A module is found by a checksum
of its bytes, so a module that is changed, or new, has no answer: its case then names what it wants itself, from the Core Specification."""
import hashlib
import os

TABLE = os.path.join(os.path.dirname(os.path.abspath(__file__)), "crate_answers.txt")


class Answer:
    """`verdict` is `ok`, `refused`, or `none` where nothing is known. Of a refusal `offset` is where it was, and `message` what it said, or None."""

    def __init__(self, verdict, offset=None, message=None):
        self.verdict, self.offset, self.message = verdict, offset, message


def digest(module):
    """The checksum by which the table names this module."""
    return hashlib.sha256(module).hexdigest()[:16]


def parse(line):
    """The answer that a line of the table has."""
    verdict, _, rest = line.partition(" ")
    if verdict == "ok" and not rest:
        return Answer("ok")
    offset, _, message = rest.partition(" ")
    if verdict != "refused" or offset != "-" and not offset.isdigit():
        raise ValueError(f"{TABLE}: no answer: {line}")
    return Answer("refused", None if offset == "-" else int(offset), message or None)


class Answers:
    def __init__(self):
        self.known = {}
        with open(TABLE, encoding="utf-8") as lines:
            for line in lines:
                key, _, answer = line.rstrip("\n").partition(" ")
                if key and key != "#":
                    self.known[key] = parse(answer)

    def of(self, module):
        """What the crate answered for this module."""
        return self.known.get(digest(module), Answer("none"))
