#!/usr/bin/env python3
"""Tries the changes of changes.tsv on a script, each in a run of its own, several at a time.

    changes.py LINKGOLD SCRIPT FILE.lines

FILE.lines is the golden file of the script. Prints a line for each change: its name and, after a tab, what is wrong, or nothing.
linkgold has to be red for a change: of one message a line of the first pattern is taken away, one of the second added, and the
message's lines or the hunk's heading name the link. It has to be green for a harmless change.
"""
import os
import re
import subprocess
import sys
import tempfile
from concurrent.futures import ThreadPoolExecutor

CHANGES = os.path.join(os.path.dirname(os.path.realpath(__file__)), "changes.tsv")
# A line of bytes, which names no attribute.
UNNAMED = re.compile(r"[-+] +(?:body|kind|rest) .*")


def messages(difference):
    """The lines of a diff by the messages that they are of. The heading of a hunk is with the first message that differs."""
    heading, parts = None, []
    for line in difference:
        if line.startswith("@@ "):
            heading = line
        if line.startswith("@@ ") or line[1:2] != " ":
            parts.append([])
        elif heading and line[0] in "-+":
            parts[-1].append(heading)
            heading = None
        parts[-1].append(line)
    return parts


def names(message, link):
    """Whether the lines of a message, or a heading, name a link; `-` is none."""
    return link == "-" or any(f'"{link}"' in line or line.startswith("@@ ") and line.endswith(f" {link}") for line in message)


def shows(message, gone, came):
    """Whether a line of one pattern is taken away, and one of another added. Lines of bytes don't count."""
    return all(any(re.fullmatch(sign + " +" + pattern, line) and not UNNAMED.fullmatch(line) for line in message)
               for sign, pattern in (("-", gone), (r"\+", came)))


def fault(linkgold, script, golden, change, link=None, *patterns):
    """What is wrong with a change, in a line, or nothing. One without a link is harmless."""
    with open(script, encoding="utf-8") as file:
        text = file.read()
    changed = subprocess.run(["sed", change], input=text, stdout=subprocess.PIPE, text=True, check=True).stdout
    if changed == text:
        return "nothing was changed"
    with tempfile.NamedTemporaryFile("w", suffix=".sh") as file:
        file.write(changed)
        file.flush()
        process = subprocess.run([linkgold, "--may-fail", golden, "--", "sh", file.name], stdout=subprocess.PIPE,
                                 stderr=subprocess.DEVNULL, text=True, check=False)
    difference = process.stdout.splitlines()
    is_right = process.returncode == 1 and any(names(lines, link) and shows(lines, *patterns) for lines in messages(difference)) \
        if link else process.returncode == 0
    return "" if is_right else f"status {process.returncode}; {'; '.join(difference)}"


def main():
    linkgold, script, golden = sys.argv[1:]
    with open(CHANGES, encoding="utf-8") as file:
        rows = [line.rstrip("\n").split("\t") for line in file if not line.startswith("#")]
    with ThreadPoolExecutor(os.cpu_count()) as pool:
        for row, text in zip(rows, pool.map(lambda row: fault(linkgold, script, golden, *row[1:]), rows)):
            print(row[0], text, sep="\t")


if __name__ == "__main__":
    main()
