"""Options that several scripts have."""
import argparse

import lines_replace


def replacement(word):
    """The argument of --replace, if it is well-formed."""
    try:
        lines_replace.Replacement([word])
    except ValueError as error:
        raise argparse.ArgumentTypeError(str(error)) from error
    return word


def add_replace(parser):
    parser.add_argument("--replace", action="append", type=replacement, default=[], metavar="REGEX=NAME",
                        help="replaces names of links and hardware addresses: puts NAME in place of each that the regular "
                        "expression REGEX matches as a whole; may be repeated")
