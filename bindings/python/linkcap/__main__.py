"""`python -m linkcap`: captures of files or of standard input, with the statuses of the programs linkcap and linkshow."""
import argparse
import sys
from typing import Any, BinaryIO, Iterator, List, NoReturn, Optional

import linkcap

from . import _native
from ._types import type_numbers

LEGAL, DIFFERENT, FAULT, USAGE = 0, 1, 2, 3


class _Parser(argparse.ArgumentParser):
    """A parser whose usage errors have the status 3."""

    def error(self, message: str) -> NoReturn:
        self.print_usage(sys.stderr)
        self.exit(USAGE, f"{self.prog}: {message}\n")


def _types(word: str) -> List[int]:
    return type_numbers(int(part) if part.isdecimal() else part for part in word.split(","))


def _version() -> str:
    return (f"linkcap {linkcap.__version__} (interface {_native.VERSION}, lines {linkcap.FORMAT}), library"
            f" {linkcap.LIBRARY_PATH}")


def _add(commands: Any, name: str, description: str, *files: str) -> argparse.ArgumentParser:
    """Adds a command that takes some files, or, without their names here, one file or standard input."""
    command: argparse.ArgumentParser = commands.add_parser(name, help=description)
    command.add_argument("--limit", type=int, default=linkcap.DEFAULT_LIMIT, help="of a message's length, in bytes")
    for file in files:
        command.add_argument(file)
    if not files:
        command.add_argument("file", nargs="?", default="-")
    return command


def _parser() -> argparse.ArgumentParser:
    parser = _Parser(prog="python -m linkcap", description="captures of netlink link messages",
                     formatter_class=argparse.RawDescriptionHelpFormatter)
    parser.add_argument("--version", action="version", version=_version())
    commands = parser.add_subparsers(dest="command", required=True, metavar="norm|same|lines|json|messages|quirks")
    _add(commands, "norm", "write the normal text")
    same = _add(commands, "same", "compare two captures", "file", "other")
    same.add_argument("--without-numbers", action="store_true", help="after zeroing sequence numbers and netlink port IDs")
    for name, description in (("lines", "write lines for people"), ("json", "write each message as JSON, in a line")):
        lines = _add(commands, name, description)
        lines.add_argument("--without-numbers", action="store_true")
        lines.add_argument("--only", type=_types, metavar="TYPE,..", help="message types, as newlink or 16")
        lines.add_argument("--link", metavar="NAME|INDEX", help="messages about this link")
        lines.add_argument("--without", type=lambda names: names.split(","), default=(), metavar="NAME,..",
                           help="no attributes of these names, or of these groups of linkshow")
        lines.add_argument("--offsets", action="store_true", help="each message's offset, in bytes")
        lines.add_argument("--keep-going", action="store_true", help="messages with a fault in their body too")
    _add(commands, "messages", "write each message's offset, length and type")
    _add(commands, "quirks", "write what some kernels treat differently from its normal text")
    return parser


def _open(name: str) -> BinaryIO:
    return sys.stdin.buffer if name == "-" else open(name, "rb")


def _options(args: Any) -> linkcap.Options:
    """The options of lines, from those of the command."""
    return {"numbers": not args.without_numbers, "only": args.only, "link": args.link, "without": args.without,
            "offsets": args.offsets, "keep_going": args.keep_going, "json": args.command == "json"}


def _lines(args: Any, file: BinaryIO) -> Iterator[bytes]:
    """The lines of one file, or those of JSON, piece by piece."""
    reader = linkcap.LineReader(args.limit, **_options(args))
    yield from (lines.encode() for lines in reader.read_file(file))


def _written(args: Any, fault: linkcap.Fault) -> Iterator[bytes]:
    """The output of a command before a fault, if it wasn't written yet."""
    if args.command in ("norm", "lines", "json"):
        yield fault.written


def _output(args: Any, file: BinaryIO) -> Iterator[bytes]:
    """The output of a command over one file, piece by piece."""
    if args.command == "norm":
        yield from linkcap.Reader(args.limit).read_file(file)
    elif args.command in ("lines", "json"):
        yield from _lines(args, file)
    elif args.command == "messages":
        for message in linkcap.messages(file.read(), args.limit):
            yield f"{message.offset} {len(message.bytes)} {message.type}\n".encode()
    else:
        for quirk in linkcap.quirks(file.read(), args.limit):
            yield f"{quirk.words}\n".encode()


def _run(args: Any) -> int:
    with _open(args.file) as file:
        if args.command == "same":
            with _open(args.other) as other:
                is_same = linkcap.same(file.read(), other.read(), args.limit, numbers=not args.without_numbers)
            sys.stdout.buffer.write(b"same\n" if is_same else b"different\n")
            return LEGAL if is_same else DIFFERENT
        for piece in _output(args, file):
            sys.stdout.buffer.write(piece)
    return LEGAL


def main(arguments: Optional[List[str]] = None) -> int:
    args = _parser().parse_args(arguments)
    try:
        return _run(args)
    except linkcap.Fault as fault:
        sys.stdout.buffer.writelines(_written(args, fault))
        print(fault, file=sys.stderr)
        return FAULT
    except OSError as error:
        print(f"linkcap: {error}", file=sys.stderr)
        return FAULT
    except ValueError as error:
        print(f"linkcap: {error}", file=sys.stderr)
        return USAGE


if __name__ == "__main__":
    sys.exit(main())
