"""Captures with their records, and files of lines, as linkdiff, linkgold and linkjson read them."""
import io
import itertools
import os
import shutil

import lines_golden
import lines_record

HEADER_SIZE, DEFAULT_LIMIT = 16, 1 << 20
FORMAT_WORDS = b"# linkcap lines"
FIRST_WORDS = (b"RTM_", b"NLMSG_", b"type ", b"# namespace", FORMAT_WORDS)
BODY_FAULTS = (
    "refused body", "ports with foreign entries alone", "attribute over 65535", "normal text over the limit")


class MissingProgram(Exception):
    """There is no program linkshow."""


def linkshow():
    """The program that shows captures.

    # Errors

    MissingProgram if there is none.
    """
    program = os.environ.get("LINKSHOW", "linkshow")
    if shutil.which(program) is None:
        raise MissingProgram(f"no program {program}: put it on your PATH, or name it by LINKSHOW")
    return program


def is_body_fault(message):
    """Whether a message of linkshow is about the body of a message, after which linkshow --keep-going goes on."""
    return message.startswith(BODY_FAULTS)


def whole_messages(data, limit):
    """The number of bytes at the start that are whole messages, with their padding, and whether none can follow, since
    the next length is no message's."""
    offset = 0
    while len(data) - offset >= HEADER_SIZE:
        length = int.from_bytes(data[offset:offset + 4], "little")
        if not HEADER_SIZE <= length <= limit:
            return offset, True
        end = offset + (length + 3) // 4 * 4
        if end > len(data):
            break
        offset = end
    return offset, False


def end_of_messages(data, limit):
    """The number of bytes at the start of a capture that are whole messages. The last one may lack padding."""
    end, is_lost = whole_messages(data, limit)
    length = int.from_bytes(data[end:end + 4], "little")
    return len(data) if not is_lost and HEADER_SIZE <= length <= len(data) - end else end


def are_lines(start):
    """Whether a file that begins so has lines. No capture begins with their first letters, which would be a length of
    over a gigabyte."""
    return start.startswith(FIRST_WORDS)


def decode_lines(lines):
    """The lines of a file of lines as text, without its head (`lines_golden`). The messages' first lines have their
    namespaces."""
    texts = (line.decode(errors="replace").rstrip("\r\n") for line in lines)
    return lines_record.from_file(itertools.dropwhile(lines_golden.is_in_head, texts))


def read_head(content):
    """The head of a file with this content, which is empty for a capture.

    # Errors

    ValueError if the head names what is no attribute or group.
    """
    lines = (line.decode(errors="replace").rstrip("\r\n") for line in io.BytesIO(content))
    return lines_golden.read_head(list(itertools.takewhile(lines_golden.is_in_head, lines)))


def record_of(name, capture):
    """The entries of the record beside the file of a capture, by their offsets, or None if there is no record.

    # Errors

    RecordFault, with the record's name.
    """
    name += lines_record.SUFFIX
    try:
        with open(name, encoding="utf-8") as file:
            return lines_record.read_record(file.read(), capture)
    except FileNotFoundError:
        return None
    except lines_record.RecordFault as fault:
        raise lines_record.RecordFault(f"{name}: {fault}") from None
