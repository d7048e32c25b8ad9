"""Lines as data, and the lines again, by the tables of rows.tsv and raw.tsv.

    json_of_lines(text)         -> a list of messages, each a dictionary
    lines_of_json(messages)     -> the text

linkjson(1) describes the keys.
"""
import os
import re
import sys

HERE = os.path.dirname(os.path.abspath(__file__))
sys.path.insert(0, HERE)
from linkshow import HEADERS, RAW_ROWS, ROWS, level_of, line, word_of      # noqa: E402
from values import PADDING, RECORDS, quote      # noqa: E402

WORDS = re.compile(r'[^\s"(]*"(?:[^"\\]|\\.)*"|\([^)]*\)|\S+')
ESCAPES = re.compile(r"\\(?:x([0-9a-f]{2})|(.))")
# The formats of an attribute's values, by its name; a line of padding has bytes, as if it were an attribute below its own
FORMATS = {"padding": {"bytes"}}
for _name, _style in [*ROWS.values(), *RAW_ROWS.values()]:
    FORMATS.setdefault(_name, set()).add(_style.partition(" ")[0])
# The fields that are objects in every header, since one of that name in some header is a set of flags or may have a text:
# those of records, of an ifinfomsg, and of a group_address; and the code
OBJECT_FIELDS = {"family", "type", "flags", "change", "proto", "code"} | {
    field for name, fields in RECORDS.items() if word_of(name) in HEADERS
    for field, _, style, type_name in fields if type_name or style.endswith("flags") or style == "weight"}
# The fields whose values are texts, also if they have digits alone: addresses, and padding
TEXT_FIELDS = {"addr"} | {field for fields in RECORDS.values() for field, _, style, _ in fields if style == PADDING}
SEVERAL_NUMBERS = {"numbers", "port_range"}
DIGITS = {"bytes", "hardware_address", "bridge_id"}


# --------------------------------------------------------------------------
# From lines

def unquote(text):
    """Each byte of a text in quotes as the character of its number."""
    return ESCAPES.sub(lambda escape: chr(int(escape[1], 16)) if escape[1] else escape[2], text[1:-1])


def take_value(words, is_digits=False):
    """Takes a value, and what is in brackets after it, off the words."""
    text = words.pop(0)
    names = words.pop(0)[1:-1] if words and words[0].startswith("(") else None
    if text.startswith("0x"):
        return {"value": int(text, 16), "flags": names.split(" | ") if names else []}
    if text.startswith('"'):
        return {"value": unquote(text), "quoted": True}
    is_number = not is_digits and re.fullmatch("-?[0-9]+", text)
    return {"value": int(text) if is_number else text, **({"text": names} if names else {})}


def plain(value):
    """A value that has nothing beside it, as it is."""
    return value["value"] if list(value) == ["value"] else value


def take_assignments(words):
    """`a=1 b=0x3 (X)` as a dictionary."""
    out = {}
    while words:
        name, _, words[0] = words[0].partition("=")
        out[name] = plain(take_value(words, name in TEXT_FIELDS))
    return out


def take_fields(words):
    """`a 1 b 0x3 (X)` as a dictionary."""
    out = {}
    while words:
        name = words.pop(0)
        value = take_value(words, name in TEXT_FIELDS)
        out[name] = value if name in OBJECT_FIELDS else plain(value)
    return out


def take_type(words):
    """The name of a message's type, or the number of one without a name."""
    return int(words.pop(1)) if words[0] == "type" else words[0]


def value_of_words(name, words):
    """What an attribute has besides its name."""
    formats = FORMATS.get(name, set())
    if words[0] == "bytes":
        return {"bytes": "".join(words[1:])}
    if words[0] == "fields":
        return {"fields": int(words[1]), "value": take_assignments(words[2:])}
    if re.match(r"\w+=", words[0]):
        return {"value": take_assignments(words)}
    if formats & SEVERAL_NUMBERS:
        return {"value": [int(word) for word in words]}
    if "label_stack" in formats:
        return {"value": " ".join(words)}
    value = take_value(words, bool(formats & DIGITS))
    if words[:1] == ["mask"]:
        mask = take_value(words[1:])
        value.update({"mask": mask["value"], "mask_flags": mask["flags"]})
    return value


def attribute_of_words(words):
    if words[0] == "kind":
        return {"kind": int(words[1], 16), "value": "".join(words[2:])}
    out, words = {"name": words[0]}, words[1:]
    if words[:1] == ["nested"]:
        out["nested_bit"], words = True, words[1:]
    return {**out, **value_of_words(out["name"], words)} if words else out


def message_of_words(words):
    return {"type": take_type(words), **take_fields(words[1:]), "attributes": []}


def entry_of_words(words):
    """An attribute, or a header among attributes."""
    return {"struct": words[0], "fields": take_fields(words[1:])} if words[0] in HEADERS else attribute_of_words(words)


def add_to_message(message, words, text):
    """Adds a line of level 1 that is no attribute, and returns whether it is one."""
    first = words[0]
    if first in ("rest", "body"):
        message[first] = words[1]
    elif first == "code":
        message.update(take_fields(words))
    elif first == "refused:":
        message["refused"] = text.strip().partition(" ")[2]
    elif first == "request":
        length, words = int(words[2]), words[3:]
        message["request"] = {"length": length, "type": take_type(words), **take_fields(words[1:])}
    elif first in HEADERS:
        message["header"] = {"struct": first, **take_fields(words[1:])}
    else:
        return False
    return True


def add_table(message):
    """Adds a route's table as the first RTA_TABLE has it, since the header has 8 bits for it."""
    table = next((entry for entry in message["attributes"] if entry.get("name") == "RTA_TABLE"), {})
    if message.get("header", {}).get("struct") == "rtmsg" and list(table)[1:2] == ["value"]:
        message["table"] = {key: table[key] for key in ("value", "text") if key in table}
    return message


def json_of_lines(text):
    out, lists = [], []
    for text_line in text.splitlines():
        level, words = level_of(text_line), WORDS.findall(text_line)
        if level == 0:
            out.append(message_of_words(words))
            lists = [out[-1]["attributes"]]
        elif level > 1 or not add_to_message(out[-1], words, text_line):
            del lists[level:]
            if len(lists) < level:
                lists.append(lists[-1][-1].setdefault("nested", []))
            lists[-1].append(entry_of_words(words))
    return [add_table(message) for message in out]


# --------------------------------------------------------------------------
# The lines again

def flags_text(value, names):
    return "0x%x" % value + (" (%s)" % " | ".join(names) if names else "")


def value_text(value):
    """The text of a value, which has nothing beside it or is in a dictionary with what is."""
    if not isinstance(value, dict) or "value" not in value:
        value = {"value": value}
    inner = value["value"]
    if "flags" in value:
        mask = " mask " + flags_text(value["mask"], value["mask_flags"]) if "mask" in value else ""
        return flags_text(inner, value["flags"]) + mask
    if value.get("quoted"):
        return quote(inner.encode("latin-1"))
    if isinstance(inner, dict):
        count = ["fields %d" % value["fields"]] if "fields" in value else []
        return " ".join(count + ["%s=%s" % (name, value_text(field)) for name, field in inner.items()])
    if isinstance(inner, list):
        return " ".join(map(str, inner))
    return str(inner) + (" (%s)" % value["text"] if "text" in value else "")


def fields_text(fields):
    return " ".join("%s %s" % (name, value_text(field)) for name, field in fields.items())


def type_text(kind):
    return kind if isinstance(kind, str) else "type %d" % kind


def entry_line(level, entry):
    if "struct" in entry:
        return line(level, entry["struct"], fields_text(entry["fields"]))
    if "kind" in entry:
        return line(level, "kind 0x%04x" % entry["kind"], entry["value"])
    name = entry["name"] + (" nested" if entry.get("nested_bit") else "")
    if "bytes" in entry:
        return line(level, name, ("bytes " + entry["bytes"]).rstrip())
    return line(level, name, value_text(entry) if "value" in entry else "")


def entry_lines(level, entries):
    out = []
    for entry in entries:
        out += [entry_line(level, entry), *entry_lines(level + 1, entry.get("nested", ()))]
    return out


def request_text(request):
    numbers = {name: field for name, field in request.items() if name not in ("length", "type")}
    return "length %d %s %s" % (request["length"], type_text(request["type"]), fields_text(numbers))


def message_lines(message):
    numbers = {name: message[name] for name in ("flags", "seq", "port", "offset") if name in message}
    out = [line(0, type_text(message["type"]), fields_text(numbers))]
    if "code" in message:
        out.append(line(1, "code", value_text(message["code"])))
    if "request" in message:
        out.append(line(1, "request", request_text(message["request"])))
    for name, word in (("rest", "rest"), ("refused", "refused:"), ("body", "body")):
        if name in message:
            out.append(line(1, word, message[name]))
    if "header" in message:
        header = dict(message["header"])
        out.append(line(1, header.pop("struct"), fields_text(header)))
    return out + entry_lines(1, message["attributes"])


def lines_of_json(messages):
    return "".join(text for message in messages for text in message_lines(message))

