"""The frame of each tool: its words, its help, its report, and its status. Nothing ends it with a trace of Python."""

from __future__ import annotations

import argparse
import re
from enum import IntEnum
from typing import Callable, List, NamedTuple, NoReturn, Optional

from . import interrupts, streams
from .tally import Tally


class Status(IntEnum):
    """How a tool ends; the numbers mean what they mean to `fire`."""

    DONE = 0
    USAGE = 2
    DAMAGED = 4
    READ_FAULT = 5
    WRITE_FAULT = 6
    NO_MEMORY = 8


STATUSES = """exit status:
  0  all of the input was read, also if there was nothing in it
  2  wrong words, or standard input is a terminal
  4  the input is {damaged}
  5  standard input cannot be read
  6  standard output or standard error cannot be written
  8  no memory is left"""


class Usage(Exception):
    """The words are not the tool's; the text says what is wrong."""


class HelpAsked(Exception):
    """Somebody asked for the help, which is the text."""


class Parser(argparse.ArgumentParser):
    """Words as argparse reads them; but what it would print and end the program with is raised."""

    def __init__(self, name: str, page: str, damaged: str):
        """The page has the description, and after its first line `examples:` what follows the options."""
        description, _, examples = page.strip().partition("\nexamples:\n")
        super().__init__(
            prog=f"{name}.py",
            usage=f"{name}.py [OPTION]... < INPUT > OUTPUT",
            description=description,
            epilog="\n\n".join(filter(None, [examples and "examples:\n" + examples, STATUSES.format(damaged=damaged)])),
            formatter_class=argparse.RawDescriptionHelpFormatter,
            allow_abbrev=False,
        )

    def error(self, message: str) -> NoReturn:
        raise Usage(message)

    def print_help(self, file=None) -> NoReturn:
        raise HelpAsked(self.format_help())


class Tool(NamedTuple):
    """A tool: its name, what its report counts, its words, and what it does with them. One that counts nothing reports
    damage alone."""

    name: str
    records: Optional[str]
    parser: Parser
    work: Callable[[argparse.Namespace], Tally]


def number_below(limit: int) -> Callable[[str], int]:
    """Reads a word that is a decimal number below the limit."""

    def number(word: str) -> int:
        if not re.fullmatch("[0-9]{1,9}", word) or int(word) >= limit:
            raise argparse.ArgumentTypeError(f"{word!r} is not a number from 0 to {limit - 1}")
        return int(word)

    return number


def run(tool: Tool, words: List[str]) -> Status:
    """Runs a tool with these words. With statuses 2, 5, 6 and 8 one line is all that is told."""
    try:
        return report(tool, worked(tool, words))
    except HelpAsked as asked:
        return show_help(tool, str(asked))
    except Usage as wrong:
        return end(tool, Status.USAGE, f"{' '.join(str(wrong).split())}; {tool.parser.prog} --help says more")
    except streams.TerminalInput:
        return end(tool, Status.USAGE, f"standard input is a terminal; {tool.parser.prog} --help says more")
    except streams.ReadFault:
        return end(tool, Status.READ_FAULT, "read fault")
    except streams.WriteFault:
        return end(tool, Status.WRITE_FAULT, "write fault")
    except MemoryError:
        return end(tool, Status.NO_MEMORY, "no memory is left")
    except KeyboardInterrupt:  # one that came just as a read was over
        return interrupts.end_now()


def worked(tool: Tool, words: List[str]) -> Tally:
    """What became of each record, once all of the output is written."""
    tally = tool.work(tool.parser.parse_args(words))
    streams.standard_output().flush()
    if tool.records is not None and not tally.is_balanced():
        tally.damage = "the counts of this report do not add up: a fault of the tool"
    return tally


def report(tool: Tool, tally: Tally) -> Status:
    told = [streams.tell(line) for line in tally.lines(tool.name, tool.records)]
    if not all(told):
        return Status.WRITE_FAULT
    return Status.DONE if tally.damage is None else Status.DAMAGED


def show_help(tool: Tool, text: str) -> Status:
    try:
        output = streams.standard_output()
        output.write(text.encode("ascii", "replace"))
        output.flush()
        return Status.DONE
    except streams.WriteFault:
        return end(tool, Status.WRITE_FAULT, "write fault")


def end(tool: Tool, status: Status, line: str) -> Status:
    streams.tell(f"{tool.name}: {line}")
    streams.give_up_output()
    return status
