#!/usr/bin/env python3
"""Draws the pictures of the pages, docs/pictures/*.svg.

    tools/pictures.py            writes them
    tools/pictures.py --check    ends with status 1 if a stored picture differs

A picture of a terminal shows blocks of a page: commands, which the gate runs, and their output, which it compares. The picture
of two hex dumps marks the bytes that the README's `cmp -l` prints. The other pictures are drawn from the names below. Beside
each picture the page has the same in words. It needs only Python.
"""
import argparse
import re
import sys
from html import escape

from layers import TOP
from pages import Page

FOLDER = TOP / "docs" / "pictures"
FONT = "ui-monospace, SFMono-Regular, Menlo, Consolas, 'DejaVu Sans Mono', monospace"
# Sizes in pixels: of the font, of a character, of a line, and of the margin.
FONT_SIZE, CHARACTER, LINE, MARGIN = 13, 7.83, 18, 16
# Colours of a terminal, and of a drawing.
DARK, LIGHT, GREY, RED, GREEN, BLUE = "#0d1117", "#e6edf3", "#8b949e", "#ff7b72", "#56d364", "#79c0ff"
PAPER, INK, PALE, MARK, RULE = "#ffffff", "#1f2328", "#f6f8fa", "#ffd8b5", "#57606a"


def text(x, y, words, fill, more=""):
    """A text whose first line begins at x and whose base line is y."""
    return '<text x="%g" y="%g" fill="%s"%s xml:space="preserve">%s</text>' % (x, y, fill, more, escape(words))


def svg(width, height, title, background, shapes):
    """A picture of that size, with the title that a reader hears who doesn't see it."""
    return "\n".join([
        '<svg xmlns="http://www.w3.org/2000/svg" width="%d" height="%d" viewBox="0 0 %d %d" role="img" font-family="%s" font-size="%d">'
        % (width, height, width, height, escape(FONT), FONT_SIZE),
        "<title>%s</title>" % escape(title),
        '<rect width="%d" height="%d" rx="8" fill="%s"/>' % (width, height, background),
        *shapes, "</svg>", ""])


# --------------------------------------------------------------------------
# Terminals

def block_of(page, beginning):
    """The block of a page whose first line begins so."""
    found = [block for block in Page(page).blocks if block.lines and block.lines[0].startswith(beginning)]
    if len(found) != 1:
        sys.exit("pictures: %s has %d blocks that begin with: %s" % (page, len(found), beginning))
    return found[0]


def colour_of(line, is_diff):
    """The colour of a line of output. pytest begins the lines of a diff with E, and Go indents them."""
    content = re.sub(r"^E?   +", "", line) if line.startswith(("E ", " " * 8)) else line
    if is_diff and content.startswith("@@"):
        return BLUE
    if is_diff and content.startswith("+"):
        return GREEN
    if is_diff and content.startswith("-") or line.startswith(("FAILED", "--- FAIL", "FAIL")):
        return RED
    return LIGHT


def terminal(title, page, beginnings):
    """A terminal with blocks of a page: commands after a prompt, and output."""
    lines = []
    for block in (block_of(page, beginning) for beginning in beginnings):
        is_diff = any(re.match("@@|E  +@@| {8}@@", line) for line in block.lines)
        for line in block.lines:
            is_command = block.language == "sh" or block.language == "console" and line.startswith("$ ")
            lines.append(("$ " + line.removeprefix("$ "), None) if is_command else (line, colour_of(line, is_diff)))
    width = max(len(line) for line, _ in lines) * CHARACTER + 2 * MARGIN
    height = len(lines) * LINE + 2 * MARGIN
    shapes = []
    for number, (line, colour) in enumerate(lines):
        y = MARGIN + LINE * number + FONT_SIZE
        if colour is None:
            shapes += [text(MARGIN, y, "$", GREY), text(MARGIN + 2 * CHARACTER, y, line[2:], LIGHT, ' font-weight="bold"')]
        else:
            shapes.append(text(MARGIN, y, line, colour))
    return svg(width, height, title, DARK, shapes)


# --------------------------------------------------------------------------
# Drawings

def box(x, y, width, height, words, fill=PALE):
    """A box with words in its middle, a line each."""
    shapes = ['<rect x="%g" y="%g" width="%g" height="%g" rx="4" fill="%s" stroke="%s"/>' % (x, y, width, height, fill, RULE)]
    first = y + height / 2 - (len(words) - 1) * LINE / 2 + FONT_SIZE / 3
    for number, line in enumerate(words):
        bold = ' font-weight="bold"' if number == 0 and len(words) > 1 else ""
        shapes.append(text(x + width / 2, first + number * LINE, line, INK, ' text-anchor="middle"' + bold))
    return shapes


def arrow(x, y, length):
    """An arrow to the right."""
    return ['<path d="M%g %g h%g m-6 -4 l6 4 l-6 4" fill="none" stroke="%s"/>' % (x, y, length, RULE)]


def flow(title, steps):
    """Boxes from left to right, with an arrow between each two."""
    height, gap, shapes, x = 62, 34, [], MARGIN
    for number, words in enumerate(steps):
        width = max(len(line) for line in words) * CHARACTER + 20
        shapes += box(x, MARGIN, width, height, words)
        x += width
        if number + 1 < len(steps):
            shapes += arrow(x + 4, MARGIN + height / 2, gap - 8)
            x += gap
    return svg(x + MARGIN, height + 2 * MARGIN, title, PAPER, shapes)


def layout(title, parts):
    """Parts of a message side by side: a name, its bytes, and lines about what is in it."""
    height, shapes, x = 44, [], MARGIN
    below = max(len(lines) for _, _, lines in parts)
    for name, size, lines in parts:
        width = max([len(name), len(size), *(len(line) for line in lines)]) * CHARACTER + 20
        shapes += box(x, MARGIN, width, height, [name, size])
        for number, line in enumerate(lines):
            shapes.append(text(x + 10, MARGIN + height + LINE * (number + 1), line, INK))
        x += width
    return svg(x + MARGIN, height + LINE * below + 2 * MARGIN + 6, title, PAPER, shapes)


def changed_bytes():
    """The bytes that the README's `cmp -l` prints: the offset from 0, before and after."""
    rows = [line.split() for line in block_of("README.md", "44 200").lines]
    return {int(row[0]) - 1: (int(row[1], 8), int(row[2], 8)) for row in rows if len(row) == 3 and row[0].isdigit()}


def dump_rows(data):
    return [data[at:at + 16] for at in range(0, len(data), 16)]


def hex_dumps(title, before_title, after_title):
    """A request and its normal text as hex dumps, one above the other, with the bytes that differ marked."""
    before = (TOP / "samples" / "lo-request.bin").read_bytes()
    changes = changed_bytes()
    after = bytearray(before)
    for at, (old, new) in changes.items():
        if before[at] != old:
            sys.exit("pictures: byte %d of samples/lo-request.bin isn't %d" % (at, old))
        after[at] = new
    shapes, y = [], MARGIN
    for heading, data in ((before_title, before), (after_title, bytes(after))):
        shapes.append(text(MARGIN, y + FONT_SIZE, heading, INK, ' font-weight="bold"'))
        y += LINE
        for number, row in enumerate(dump_rows(data)):
            shapes.append(text(MARGIN, y + FONT_SIZE, "%02x" % (16 * number), RULE))
            for column, byte in enumerate(row):
                x = MARGIN + (4 + 3 * column) * CHARACTER
                if 16 * number + column in changes:
                    shapes.append('<rect x="%g" y="%g" width="%g" height="%d" rx="3" fill="%s"/>' % (x - 3, y, 2 * CHARACTER + 6, LINE - 1, MARK))
                shapes.append(text(x, y + FONT_SIZE, "%02x" % byte, INK))
            y += LINE
        y += LINE / 2
    return svg(MARGIN * 2 + 52 * CHARACTER, y + MARGIN / 2, title, PAPER, shapes)


def pictures():
    """The pictures by name."""
    return {
        "golden.svg": terminal(
            "A terminal: linkgold writes a golden file and finds it equal; after a change its diff shows the lost MTU and the wrong bridge",
            "README.md", ["linkgold --update network.lines", "equal", "sed 's/ mtu", "--- network.lines"]),
        "flow.svg": flow(
            "A program is run by linkrec, which writes a capture; linkshow prints its lines; they are compared with a golden file",
            [["program", "asks the kernel"], ["linkrec", "records it"], ["capture", "made.bin"],
             ["linkshow", "prints lines"], ["golden file", "made.lines"]]),
        "message.svg": layout(
            "A link message: nlmsghdr, ifinfomsg, and attributes",
            [("nlmsghdr", "16 bytes", ["length", "type, flags", "sequence number", "port ID"]),
             ("ifinfomsg", "16 bytes", ["address family", "device type", "index", "flags, change mask"]),
             ("attribute", "4 bytes and more", ["length", "type", "payload", "padding to 4"]),
             ("attribute", "4 bytes and more", ["length", "type", "payload: attributes", "padding to 4"])]),
        "normal.svg": hex_dumps("Hex dumps of a request and of its normal text, in which the bytes at 2b and 2f differ",
                                "samples/lo-request.bin", "its normal text"),
        "pytest.svg": terminal("A terminal: pytest shows the difference of a request from its golden file: IFLA_MTU 1450, and 1400",
                               "bindings/python/README.md", ["$ pytest"]),
        "go.svg": terminal("A terminal: go test shows the difference of a request from its golden file: IFLA_MTU 1450, and 1400",
                           "bindings/go/README.md", ["$ go test"]),
        "json.svg": terminal("linkshow --json and jq print two attributes as objects of JSON", "docs/showing.md",
                             ["linkshow --json samples/lo-request.bin", '{"name":"IFLA_EXT_MASK"']),
    }


def main():
    parser = argparse.ArgumentParser(description=__doc__.split("\n")[0])
    parser.add_argument("--check", action="store_true", help="ends with status 1 if a stored picture differs")
    is_check = parser.parse_args().check
    drawn = pictures()
    if not is_check:
        FOLDER.mkdir(exist_ok=True)
        for name, picture in drawn.items():
            (FOLDER / name).write_text(picture, encoding="utf-8")
        return 0
    stored = {path.name: path.read_text(encoding="utf-8") for path in FOLDER.glob("*.svg")}
    wrong = sorted(name for name in {*stored, *drawn} if stored.get(name) != drawn.get(name))
    for name in wrong:
        print("pictures: docs/pictures/%s isn't what tools/pictures.py draws" % name)
    return 1 if wrong else 0


if __name__ == "__main__":
    sys.exit(main())
