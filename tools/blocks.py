"""The blocks of a page or of a manual's examples, with the marks above them."""
import re

MARKS = re.compile(r"wants .+|continues|status \d+|given .+|saved as \S+|output|file: \S+|run by \S+|written by \S+|sketch")
HEADING = re.compile(r"#{1,6} |\.S[hs] ")


class Block:
    """A fenced block: its language, its text, the marks above it, and the line of the fence."""

    def __init__(self, line, language, marks):
        self.line, self.language, self.marks = line, language, marks
        self.lines = []

    def mark(self, word):
        """The text after the first word of a mark, by this word; None if there is no such mark."""
        for mark in self.marks:
            first, _, rest = mark.partition(" ")
            if first.rstrip(":") == word:
                return rest
        return None

    def text(self):
        return "".join(line + "\n" for line in self.lines)

    def requirements(self):
        """What the mark `wants` names."""
        return [word for word in re.split(r",\s*(?:and\s+)?|\s+and\s+", self.mark("wants") or "") if word]

    def given_files(self):
        """The files that the mark `given` names, as pairs: the name that the commands use, and the path in the repository."""
        pairs = (pair.partition("=") for pair in (self.mark("given") or "").split(",") if pair.strip())
        return [(name.strip(), path.strip()) for name, _, path in pairs]

    def saved_name(self):
        """The name under which the mark `saved` leaves the block's text to later commands; None without one."""
        mark = self.mark("saved")
        return mark and mark.partition(" ")[2]

    def visible_words(self):
        """What the text above the block has to name, since a reader sees no marks."""
        saved = self.saved_name()
        return [*self.requirements(), *(name for name, _ in self.given_files()), *([saved] if saved else [])]


def prose_above(page, index):
    """The prose between a block and the block or heading before it, as one line without markup."""
    block = page.blocks[index]
    begin = page.blocks[index - 1].line if index else 0
    lines = []
    for number, line in page.prose:
        if begin < number < block.line:
            lines = [] if HEADING.match(line) else [*lines, line]
    text = re.sub(r"\]\([^)]*\)", "]", " ".join(lines))
    return " ".join(re.sub(r"[`*\[\]]", "", text).split())


def check_visible(page):
    """The blocks whose marks name something that the prose above them doesn't."""
    for index, block in enumerate(page.blocks):
        words = block.visible_words()
        prose = prose_above(page, index) if words else ""
        for word in words:
            if not re.search(r"(?<![\w-])%s(?![\w-])" % re.escape(word), prose, flags=re.IGNORECASE):
                yield "%s:%d: the text above the block doesn't say: %s" % (page.name, block.line, word)
