"""The examples of the manuals, as blocks of commands.

In the section EXAMPLES of a manual, lines `.Dl` without other lines between, and what is between `.Bd -literal` and `.Ed`, are a
block of commands. If lines begin with the prompt `$ `, these are the commands, and other lines are their output. A mark is a
comment above a block, with the words of a page's marks:

    .\\" wants strace and iproute2
"""
import re

from blocks import MARKS, Block
from layers import TOP

PROMPT = "$ "
MARK = re.compile(r'\.\\"\s*(.*?)\s*')
ESCAPES = {"e": "\\", "(dq": '"', "(aq": "'", "-": "-", "&": ""}


def plain(text):
    """Text without the escapes of roff."""
    return re.sub(r"\\(e|\(dq|\(aq|-|&)", lambda escape: ESCAPES[escape.group(1)], text)


def words_of(line):
    """What a reader sees of a line of prose."""
    return plain(re.sub(r"^\.\w+ ?", "", line)) if not line.startswith(".S") else line


class ManualExamples:
    """The examples of a manual: its blocks, the prose between them, and faults of its marks."""

    def __init__(self, name):
        self.name = name
        self.blocks, self.prose, self.faults = [], [], []
        self.block, self.marks, self.is_literal, self.is_example = None, [], False, False
        for number, line in enumerate((TOP / name).read_text(encoding="utf-8").split("\n"), 1):
            self.read(number, line)
        self.end_block()

    def read(self, number, line):
        """Takes the next line."""
        if line.startswith(".Sh "):
            self.end_block()
            self.is_example = line == ".Sh EXAMPLES"
        if not self.is_example:
            return
        if self.is_literal and line != ".Ed":
            self.block.lines.append(plain(line))
        elif line.startswith(".Dl "):
            self.begin_block(number)
            self.block.lines.append(plain(line[len(".Dl "):]))
        elif line.startswith(".Bd -literal"):
            self.end_block()
            self.begin_block(number)
            self.is_literal = True
        else:
            self.end_block()
            self.read_prose(number, line)

    def read_prose(self, number, line):
        mark = MARK.fullmatch(line)
        if not mark:
            self.prose.append((number, words_of(line)))
            return
        self.marks.append(mark.group(1))
        if not MARKS.fullmatch(mark.group(1)):
            self.faults.append("%s:%d: no such mark: %s" % (self.name, number, mark.group(1)))

    def begin_block(self, number):
        if self.block is None:
            self.block, self.marks = Block(number, "sh", self.marks), []

    def end_block(self):
        """Adds the block that was begun, and its output as another one."""
        block, self.block, self.is_literal = self.block, None, False
        if block is None:
            return
        self.blocks.append(block)
        if block.mark("sketch") is not None:
            block.language = "c"
        elif any(line.startswith(PROMPT) for line in block.lines):
            output = Block(block.line, "", ["output"])
            output.lines = [line for line in block.lines if not line.startswith(PROMPT)]
            block.lines = [line[len(PROMPT):] for line in block.lines if line.startswith(PROMPT)]
            if output.lines:
                self.blocks.append(output)
