"""Makes the cases that upstream.sh compares: link bodies, frames and walks."""
import os
import random
import sys

TOP = os.path.join(os.path.dirname(os.path.abspath(__file__)), "..", "..")
sys.path.insert(0, os.path.join(TOP, "bench"))
sys.path.insert(0, os.path.join(TOP, "tools", "oracle"))
import check                # noqa: E402
import hostile              # noqa: E402
import raw_bodies           # noqa: E402
import tables               # noqa: E402
import vectors              # noqa: E402

LINK_TYPES = range(16, 20)
FAMILIES = [0, 0, 0, 0, 7, 10, 2, 45, 17]
LAYERS = [*tables.LAYER_TYPES]
DEEPEST = 4
CORE_SHARE = 10             # a frame and a walk for so many bodies
UNREPORTED = b"\xff" * 4     # a setting of a virtual function that the driver doesn't report


def attribute(rng, kind, payload):
    """An attribute, whose kind may have flag bits, and whose padding may not be zero."""
    flags = rng.choice([0] * 12 + [0x8000, 0x8000, 0x4000, 0xC000])
    length = min(65535, 4 + len(payload))
    padding = raw_bodies.some_bytes(rng, -len(payload) % 4) if rng.random() < 0.1 else bytes(-len(payload) % 4)
    return length.to_bytes(2, "little") + (kind | flags).to_bytes(2, "little") + payload + padding


def text(rng):
    return rng.choice([b"lo\0", b"eth0", b"", b"\0", b"a\0b\0", b"caf\xc3\xa9\0", b"\"quoted\\ \n\0", b"caf\xe9\0", b"x\0\0"])


def size_of(rng, numbers):
    """A size that a shape with these numbers accepts, or nearly."""
    size = rng.choice(numbers or [0])
    return max(0, size + rng.choice([0] * 14 + [-1, 1, 4, -4]))


def shaped(rng, name):
    """A payload for a shape, which accepts most of them."""
    word, *numbers = name.split(" ")
    if word == "text":
        return text(rng)
    sizes = {"boolean_if_nonzero": [1], "boolean_if_one": [1], "boolean_of_four": [4], "presence": [0, 0, 1], "id_and_boolean": [8, 12],
             "raw": [0, 4, 6, 16, 20], "never": [0, 4]}.get(word) or [int(number) for number in numbers]
    if word in ("resized", "at_most"):
        sizes = [*sizes, sizes[0] // 2 // 4 * 4, sizes[0] + 4]
    if word == "id_and_boolean" and rng.random() < 0.1:
        return raw_bodies.some_bytes(rng, 4) + UNREPORTED
    size = size_of(rng, sizes)
    if rng.random() < 0.5:
        return rng.randrange(12).to_bytes(16, rng.choice(["little", "big"]))[-size:].rjust(size, b"\0") if size <= 16 and size \
            else bytes(size)
    return raw_bodies.some_bytes(rng, size)


def entry(rng, table, kind, context, depth):
    """An attribute of a row of a table."""
    row = table.rows.get(kind, tables.RAW)
    if isinstance(row, tables.Choice):
        if row.name.startswith("peer"):
            return attribute(rng, kind, body(rng, depth + 2) if rng.random() < 0.9 else raw_bodies.some_bytes(rng, 7))
        row = row.pick(None, context)
    if isinstance(row, tables.Shape):
        return attribute(rng, kind, shaped(rng, row.name))
    return attribute(rng, kind, list_of(rng, row.table, row.context, depth + 1))


def info_list(rng, depth):
    """Link info: a kind of link and its data, a port kind and its data, statistics, in an order that is usual most times."""
    out = b""
    in_force, port_in_force = None, None
    for kind in rng.choice([[1, 2], [1, 2], [1, 2], [1, 3], [1, 2, 4, 5], [4, 5], [2], [1, 2, 2], [1, 2, 1, 2], [9], [5]]):
        if kind == 1:
            in_force = rng.choice([*tables.DATA_ROWS, "bond", "bridge", "vlan", "hsr", "can", "dsa", "other", ""])
            out += attribute(rng, 1, in_force.encode() + rng.choice([b"\0", b"\0", b""]))
        elif kind == 4:
            port_in_force = rng.choice([*tables.PORT_DATA_ROWS, "other"])
            out += attribute(rng, 4, port_in_force.encode() + b"\0")
        elif kind == 2:
            row = tables.DATA_ROWS.get(in_force)
            out += attribute(rng, 2, data_of(rng, in_force, row, depth))
        elif kind == 5:
            row = tables.PORT_DATA_ROWS.get(port_in_force)
            out += attribute(rng, 5, data_of(rng, port_in_force, row, depth))
        else:
            out += attribute(rng, kind, raw_bodies.some_bytes(rng, rng.choice([0, 4, 8])))
    return out


def data_of(rng, name, row, depth):
    """Data of a kind of link."""
    if row is None:
        return raw_bodies.some_bytes(rng, rng.choice([0, 4, 8]))
    if isinstance(row, tables.Shape):
        return shaped(rng, row.name)
    if row.table.name == "raw":
        table = raw_bodies.TABLE_ROWS.get(name)
        return raw_bodies.attributes(rng, name, 3) if table and rng.random() < 0.7 else b"".join(
            attribute(rng, rng.randrange(45), raw_bodies.some_bytes(rng, rng.choice([1, 1, 2, 4, 4, 8, 0])))
            for _ in range(rng.randrange(4)))
    return list_of(rng, row.table, name if row.context is None else row.context, depth + 1)


def list_of(rng, table, context, depth):
    """A list of attributes of a table."""
    if table is tables.LINK_INFO:
        return info_list(rng, depth)
    kinds = [*table.rows] * 3 + [rng.randrange(70)]
    count = rng.choice([0, 1, 1, 2, 3]) if depth < DEEPEST else 1
    out = b"".join(entry(rng, table, rng.choice(kinds), context, depth) for _ in range(count))
    return out if rng.random() < 0.98 else out + b"\xff"


def body(rng, depth=0):
    """The body of a link message."""
    family = rng.choice([*FAMILIES, rng.randrange(256)])
    header = bytes([family, rng.choice([0, 0, 0, 5])]) + rng.choice([1, 1, 0, *LAYERS, rng.randrange(65536)]).to_bytes(2, "little")
    header += b"".join(rng.choice([0, 1, 0x1043, rng.getrandbits(32)]).to_bytes(4, "little") for _ in range(3))
    return header + list_of(rng, tables.LINK_TABLES["peers"], family, depth)


def frames_of(capture):
    """The frames of a capture as far as their lengths go, each with the bytes after it left out."""
    for at in hostile.frames(capture):
        yield capture[at:at + max(16, hostile.number(capture, at, 4))]


def bodies_of(capture):
    """The link bodies of a capture."""
    for frame in frames_of(capture):
        if int.from_bytes(frame[4:6], "little") in LINK_TYPES:
            yield frame[16:]


def stored(folders):
    """The samples, the captures in folders, and the captures and lists of the vectors."""
    for folder in [os.path.join(TOP, "samples"), *folders]:
        for path, _, names in sorted(os.walk(folder)):
            for name in sorted(names):
                if name.endswith(".bin"):
                    with open(os.path.join(path, name), "rb") as file:
                        yield file.read()
    for kind in vectors.KINDS:
        for case in vectors.cases(kind):
            words = [word for word in case.split(" ") if len(word) % 2 == 0 and len(word) > 31 or kind == "link_info"]
            for word in words:
                data = bytes.fromhex(word)
                if kind == "link_info":
                    data = (4 + len(data)).to_bytes(2, "little") + b"\x12\0" + data if len(data) < 65532 else b""
                    data = (32 + len(data)).to_bytes(4, "little") + b"\x10\0" + bytes(26) + data
                yield data


def made_bodies(seed, sources):
    """Bodies without an end: made from the rows, and those of mutated captures."""
    rng = random.Random(seed)
    small = [source for source in sources if source]
    while True:
        choice = rng.random()
        if choice < 0.5:
            found = [body(rng)]
        elif choice < 0.65:
            found = [hostile_bodies(rng, body(rng))]
        elif choice < 0.75:
            found = list(bodies_of(raw_bodies.capture(rng)))
        elif choice < 0.9:
            found = list(bodies_of(hostile.mutate(rng, rng.choice(small))))
        else:
            found = list(bodies_of(check.mutate(rng, rng.choice(small))))
        yield from found[:3]


def hostile_bodies(rng, made):
    """A body after mutations of a frame that has it."""
    frame = (16 + len(made)).to_bytes(4, "little") + b"\x10\0" + bytes(10) + made
    return hostile.mutate(rng, frame)[16:]


def core_cases(rng, sources):
    """A frame and a walk, from a stored capture or made."""
    choice = rng.random()
    if choice < 0.4:
        payload = raw_bodies.some_bytes(rng, rng.choice([0, 0, 1, 3, 4, 5, 8, 20]))
        length = 16 + len(payload) + rng.choice([0] * 8 + [-1, 1, 4, -20, 1000])
        kind = rng.choice([1, 2, 2, 3, 3, 4, 0, 5, 16, 20, rng.randrange(65536)])
        frame = (length % 2 ** 32).to_bytes(4, "little") + kind.to_bytes(2, "little") + raw_bodies.some_bytes(rng, 10) + payload
    else:
        frame = hostile.mutate(rng, rng.choice(sources))[:4000]
    yield "frame " + frame.hex()
    walked = b"".join(attribute(rng, rng.randrange(16384), raw_bodies.some_bytes(rng, rng.randrange(9)))
                      for _ in range(rng.randrange(5))) if choice < 0.5 else frame[16:]
    yield "walk " + hostile_bodies(rng, walked).hex()


def cases(seed, count, folders):
    """The cases: all stored ones, and `count` link bodies that are made, and others."""
    sources = [source for source in stored(folders) if source]
    seen = set()
    for source in sources:
        for found in bodies_of(source):
            if found not in seen:
                seen.add(found)
                yield "stored", "body " + found.hex()
        for frame in frames_of(source):
            if frame not in seen and len(frame) < 70000:
                seen.add(frame)
                yield "stored", "frame " + frame.hex()
                yield "stored", "walk " + frame[32:].hex()
    rng = random.Random(seed + 1)
    small = [source for source in sources if len(source) < 20000]
    for index, found in enumerate(made_bodies(seed, small)):
        if index == count:
            return
        yield "made", "body " + found.hex()
        if index % CORE_SHARE == 0:
            for case in core_cases(rng, small):
                yield "made", case


if __name__ == "__main__":
    import collections
    counts = collections.Counter()
    with open(sys.argv[3], "w") as file:
        for origin, case in cases(int(sys.argv[1]), int(sys.argv[2]), sys.argv[4:]):
            counts[origin, case.split(" ")[0]] += 1
            file.write(case + "\n")
    print(counts)
