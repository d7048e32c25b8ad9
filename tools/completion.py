#!/usr/bin/env python3
"""Writes the lists in man/linkcap.bash, man/linkcap.zsh and man/linkcap.fish: what completion offers for the programs.

    tools/completion.py            writes them, between the lines `# ---- lists` and `# ---- end of lists`
    tools/completion.py --check    ends with status 1 if one of the files has other lists

Options, their values and what they do are those of `--help`: of the scripts as they print it, of linkshow as its crate has it.
Types of messages are those of the independent implementation, tools/oracle. It needs only Python.
"""
import os
import re
import subprocess
import sys
from collections import namedtuple
from pathlib import Path

TOP = Path(__file__).resolve().parents[1]
sys.dont_write_bytecode = True
sys.path.append(str(TOP / "tools/oracle"))
from tables import TYPES  # noqa: E402

HELP_OF_LINKSHOW = TOP / "crates/linkshow_program/src/texts.rt"
LISTS = re.compile(r"(?<=^# ---- lists, by tools/completion.py\n).*?(?=^# ---- end of lists$)", re.M | re.S)
# Lines of help, in which a description isn't wrapped: an option, with its short name and its value; a command of linkrec
OPTION = re.compile(r"^  (?:(-\w)(?: [^ ,]+)?, )?(--[a-z-]+)(?: (\S+))?(?:  +(.*))?$", re.M)
COMMAND = re.compile(r"^    ([a-z]+)  +(.*)$", re.M)
# What completes a value, by its name in help; nothing does so for other values
KINDS = {"TYPE,..": "types", "NAME,..": "groups", "FILE": "files"}
CHOICES = re.compile(r"\{(.*)\}")

# An option: its short name or None, its long name, its value as help has it or None, and what it does in a few words.
Option = namedtuple("Option", "short name value summary")
# A program, or a command of linkrec: its name, what it does, and its options.
Program = namedtuple("Program", "name summary options")


def summary(text):
    """The first clause of a description."""
    return " ".join(re.split("[:;(.]", text)[0].split())


def help_of(*command):
    """What a program prints for --help, with each description in one line."""
    if command[0] == "linkshow":
        text = re.search(r'^const HELP: &str = "(.*?)";$', HELP_OF_LINKSHOW.read_text(encoding="utf-8"), re.M | re.S)[1]
    else:
        text = subprocess.run([sys.executable, TOP / "scripts" / command[0], *command[1:], "--help"], stdout=subprocess.PIPE,
                              env={**os.environ, "COLUMNS": "1000", "NO_COLOR": "1"}, text=True, check=True).stdout
    return re.sub(r"\n {10,}", "  ", text)


def program(name, text, described=""):
    """The program with this help."""
    options = [Option(short or None, option, value or None, summary(words)) for short, option, value, words in OPTION.findall(text)]
    return Program(name, summary(described), options)


def programs():
    """The programs with options. Commands of linkrec come after it, by the name `linkrec COMMAND`."""
    result = []
    for name in ("linkshow", "linkdiff", "linkrec", "linkgold", "linkjson"):
        text = help_of(name)
        result.append(program(name, text))
        if name == "linkrec":
            result += [program("linkrec " + word, help_of(name, word), described) for word, described in COMMAND.findall(text)]
    return result


def kind_of(option):
    """What completes the value of an option: types, groups or files, words with spaces between them, or None."""
    choices = CHOICES.search(option.value)
    return choices[1].replace(",", " ") if choices else KINDS.get(option.value)


def type_words():
    """The names of the types of messages without RTM_ and NLMSG_, in lower case."""
    return " ".join(name.partition("_")[2].lower() for name in TYPES.values())


def commands(listed):
    return [(each.name.partition(" ")[2], each.summary) for each in listed if " " in each.name]


# ---- bash

def bash_array(name, values):
    """An associative array. Bash loads completion in a function, where it would else be a local one."""
    return "declare -gA %s=(\n%s)\n" % (name, "".join('    ["%s"]="%s"\n' % item for item in values))


def bash_lists(listed):
    options = [(each.name, " ".join(option.name for option in each.options)) for each in listed]
    values = {name: kind_of(option) or "" for each in listed for option in each.options if option.value
              for name in (option.short, option.name) if name}
    words = '_linkcap_commands="%s"\n_linkcap_types="%s"\n' % (" ".join(word for word, _ in commands(listed)), type_words())
    return bash_array("_linkcap_options", options) + bash_array("_linkcap_values", sorted(values.items())) + words


# ---- zsh

def zsh_option(option):
    """The specification of an option for _arguments."""
    names = [name for name in (option.short, option.name) if name]
    value = ""
    if option.value:
        kind = kind_of(option)
        is_optional = option.value.startswith("[")
        action = "_linkcap_" + kind if kind in KINDS.values() else "(%s)" % kind if kind else ""
        value = "%s:%s:%s" % (":" * is_optional, option.name[2:], action)
    name = "'(%s)'{%s}" % (" ".join(names), ",".join(names)) if option.short else option.name
    return '    %s"%s%s"\n' % (name, "[%s]" % option.summary if option.summary else "", value)


def zsh_lists(listed):
    lines = ["local -a _linkcap_options_%s=(\n%s)\n" % (each.name.replace(" ", "_"), "".join(map(zsh_option, each.options)))
             for each in listed]
    words = "".join('    "%s:%s"\n' % command for command in commands(listed))
    return "%slocal -a _linkcap_commands=(\n%s)\nlocal -a _linkcap_types=(%s)\n" % ("".join(lines), words, type_words())


# ---- fish

def fish_value(option):
    """The arguments of complete that offer what completes the value of an option."""
    kind = kind_of(option)
    if kind == "files":
        return "-r"
    return "-x -a '%s'" % ("(__linkcap_%s)" % kind if kind in KINDS.values() else kind) if kind else "-x"


def fish_option(each, option):
    name, _, command = each.name.partition(" ")
    parts = ["complete -c " + name, '-n "__linkcap_is %s"' % command if command else "",
             "-s " + option.short[1:] if option.short else "", "-l " + option.name[2:],
             fish_value(option) if option.value else "", '-d "%s"' % option.summary if option.summary else ""]
    return " ".join(filter(None, parts)) + "\n"


def fish_lists(listed):
    lines = [fish_option(each, option) for each in listed for option in each.options]
    lines += ['complete -c linkrec -n "__linkcap_is" -a %s -d "%s"\n' % command for command in commands(listed)]
    return "%sset -g __linkcap_type_names %s\n" % ("".join(lines), type_words())


WRITTEN = {"bash": bash_lists, "zsh": zsh_lists, "fish": fish_lists}


def main():
    is_check, status, listed = sys.argv[1:] == ["--check"], 0, programs()
    for shell, lists in WRITTEN.items():
        path = TOP / "man" / ("linkcap." + shell)
        text = path.read_text(encoding="utf-8")
        new, count = LISTS.subn(lambda _: lists(listed), text)
        if count != 1:
            raise SystemExit("completion: no lists in %s" % path.name)
        if new != text and is_check:
            print("completion: %s differs from --help: tools/completion.py writes it" % path.name)
            status = 1
        elif new != text:
            path.write_text(new, encoding="utf-8")
    return status


if __name__ == "__main__":
    sys.exit(main())
