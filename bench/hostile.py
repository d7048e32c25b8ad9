#!/usr/bin/env python3
"""Makes broken captures, and checks the results of the programs by laws, without a second implementation.

    bench/hostile.sh [SEED [COUNT]]

Captures come in groups of siblings under one limit: mutations of one sample or vector, or of one capture that raw_bodies.py
makes of messages of other types and of raw attributes. These are the laws of a capture:

- The whole capture, its pieces of 1, 7 and 100 bytes, and the call `check` have one result. The program vectors compares
  these.
- The offset of a fault is a multiple of 4 inside the capture. The capture up to there is legal, and its normal text is the
  text of the result.
- The normal text is legal and canonical, has the length of the result, and is at most 77 times as long as the capture.
- The capture means the same as its normal text. It means the same as its neighbour if and only if their texts are equal. A
  pair with a fault has the first fault of the first capture, or else that of the second.
- The lines of the capture are those of its normal text. They are those of its neighbour if and only if their texts are equal.
- Of every thousandth capture, linkcap gives this text, fault and status, in an address space of 32 MB and 100 times the
  longest frame.

It prints counts, and the captures that break a law. The status is 1 if one does.
"""
import collections
import multiprocessing
import os
import random
import resource
import subprocess
import sys

TOP = os.path.join(os.path.dirname(os.path.abspath(__file__)), "..")
sys.path.insert(0, os.path.join(TOP, "tools", "oracle"))
import raw_bodies           # noqa: E402
import vectors              # noqa: E402

GROUP = 20
GROUPS = 250
GREATEST = 4294967295
LIMITS = [1048576, 1048576, 1048576, 65536, 1000, 16, GREATEST]
SPECIAL = [0, 1, 2, 3, 4, 5, 15, 16, 17, 65531, 65532, 65533, 65534, 65535]
LINKS = range(16, 20)


def program(name):
    return os.path.join(TOP, "crates", name, "out", name)


def bases():
    """The captures that others are made from."""
    for name in sorted(os.listdir(os.path.join(TOP, "samples"))):
        if name.endswith(".bin"):
            with open(os.path.join(TOP, "samples", name), "rb") as file:
                yield file.read()
    for case in vectors.cases("norm"):
        capture = bytes.fromhex(case.split(" ")[1])
        if capture:
            yield capture


def number(data, at, size):
    return int.from_bytes(data[at:at + size], "little")


def set_number(data, at, size, value):
    data[at:at + size] = (value % 256 ** size).to_bytes(size, "little")


def round_up(length):
    return (length + 3) // 4 * 4


def frames(data):
    """The offsets of the frames, each found by the length of the frame before it."""
    at = 0
    while at + 16 <= len(data):
        yield at
        at += round_up(max(16, number(data, at, 4)))


def attributes(data, begin, end, depth=0):
    """The offsets of attributes, and of bytes inside them that may be attributes."""
    at = begin
    while at + 4 <= end:
        length = number(data, at, 2)
        if length < 4 or at + length > end:
            return
        yield at
        if depth < 5 and length >= 8:
            yield from attributes(data, at + 4, at + length, depth + 1)
        at += round_up(length)


def header_size(data, at):
    """The size of the header of the body of the frame at an offset; None if no attributes follow."""
    kind, body = number(data, at + 4, 2), data[at + 16:at + number(data, at, 4)]
    return 16 if kind in LINKS else raw_bodies.header_size(kind, number(data, at + 6, 2), body)


def all_attributes(data):
    offsets = []
    for at in frames(data):
        size = header_size(data, at)
        if size is not None:
            offsets += attributes(data, at + 16 + size, min(len(data), at + number(data, at, 4)))
    return offsets


def flip(rng, data):
    data[rng.randrange(len(data))] ^= 1 << rng.randrange(8)


def replace_byte(rng, data):
    data[rng.randrange(len(data))] = rng.choice([0, 1, 2, 3, 4, 255, rng.randrange(256)])


def cut(rng, data):
    del data[rng.randrange(len(data)):]


def grow(rng, data):
    at = rng.randrange(len(data) + 1)
    data[at:at] = bytes(rng.choice([0, 0, rng.randrange(256)]) for _ in range(rng.choice([1, 2, 3, 4, 8])))


def change_frame_length(rng, data):
    at = rng.choice(list(frames(data)) or [0])
    length = number(data, at, 4)
    set_number(data, at, 4, rng.choice([length - 1, length + 1, length - 4, length + 4, GREATEST, *SPECIAL]))


def change_frame_type(rng, data):
    set_number(data, rng.choice(list(frames(data)) or [0]) + 4, 2, rng.choice([*range(21), *range(124), 65535]))


def change_attribute_length(rng, data):
    offsets = all_attributes(data)
    if offsets:
        at = rng.choice(offsets)
        length = number(data, at, 2)
        set_number(data, at, 2, rng.choice([length - 1, length + 1, length - 4, length + 4, *SPECIAL]))


def change_attribute_kind(rng, data):
    offsets = all_attributes(data)
    if offsets:
        at = rng.choice(offsets)
        kind = number(data, at + 2, 2)
        flags = rng.choice([0, 16384, 32768, 49152])
        set_number(data, at + 2, 2, rng.choice([kind % 16384 | flags, rng.randrange(70) | flags, kind]))


def resize_containers(data, start, end, change):
    """Adds `change` to the lengths of the frame and of the attributes around an attribute from `start` to `end`."""
    for at in all_attributes(data):
        if at < start and at + number(data, at, 2) >= end:
            set_number(data, at, 2, number(data, at, 2) + change)
    for at in frames(data):
        if at < start < at + number(data, at, 4):
            set_number(data, at, 4, number(data, at, 4) + change)
            return


def duplicate(rng, data):
    """Inserts a copy of an attribute before it."""
    offsets = all_attributes(data)
    if offsets:
        at = rng.choice(offsets)
        size = round_up(number(data, at, 2))
        copy = data[at:at + size]
        resize_containers(data, at, at + number(data, at, 2), len(copy))
        data[at:at] = copy


def nest(rng, data):
    """Puts an attribute into a chain of up to 12 others."""
    offsets = all_attributes(data)
    if not offsets:
        return
    at = rng.choice(offsets)
    size = number(data, at, 2)
    inner = bytes(data[at:at + size])
    for _ in range(rng.randrange(1, 13)):
        inner += bytes(-len(inner) % 4)
        kind = rng.choice([1, 2, 5, 18, 22, 24, 26, 52, number(data, at + 2, 2)])
        inner = min(65535, len(inner) + 4).to_bytes(2, "little") + (kind % 65536).to_bytes(2, "little") + inner
    resize_containers(data, at, at + size, round_up(len(inner)) - round_up(size))
    data[at:at + round_up(size)] = inner + bytes(-len(inner) % 4)


def lengthen(rng, data):
    """Lengthens an attribute to about 65535 bytes. It does so seldom, since these captures take long."""
    offsets = all_attributes(data)
    if offsets and rng.random() < 0.02:
        at = rng.choice(offsets)
        size = number(data, at, 2)
        more = rng.choice(SPECIAL[-5:]) - size
        if more > 0:
            resize_containers(data, at, at + size, round_up(size + more) - round_up(size))
            data[at + round_up(size):at + round_up(size)] = bytes(round_up(size + more) - round_up(size))
            set_number(data, at, 2, size + more)


def fill_padding(rng, data):
    """Writes random bytes into the padding of attributes."""
    for at in all_attributes(data):
        length = number(data, at, 2)
        for index in range(at + length, min(len(data), at + round_up(length))):
            data[index] = rng.randrange(256)


def append_copy(rng, data):
    """Appends a copy of the capture, from one of its frames on."""
    starts = list(frames(data))
    data += bytes(-len(data) % 4) + (data[rng.choice(starts):] if starts else data)


MUTATIONS = [flip, replace_byte, cut, grow, change_frame_length, change_frame_type, change_attribute_length,
             change_attribute_kind, change_attribute_kind, duplicate, nest, lengthen, fill_padding, fill_padding,
             append_copy]


def mutate(rng, base):
    data = bytearray(base)
    for _ in range(rng.choice([0, 1, 1, 1, 2, 3])):
        if data:
            rng.choice(MUTATIONS)(rng, data)
    return bytes(data[:400000])


def groups(seed, sources):
    """Yields a limit and a group of siblings, GROUPS times."""
    rng = random.Random(seed)
    for _ in range(GROUPS):
        base = raw_bodies.capture(rng) if rng.random() < 0.3 else rng.choice(sources)
        near = number(base, 0, 4) + rng.randrange(-4, 60)
        limit = rng.choice([*LIMITS, max(16, min(near, GREATEST))])
        yield limit, [mutate(rng, base) for _ in range(GROUP)]


def run_vectors(kind, cases):
    """The results of the program vectors for cases of a kind, each a line, or several lines of `show`; `inconsistent` if it
    ends with an error."""
    text = "".join(kind + " " + case for case in cases)
    process = subprocess.run([program("vectors")], input=text.encode(), stdout=subprocess.PIPE)
    results = process.stdout.decode().splitlines()
    if kind == "show":
        results = list(vectors.show_results(results))
    if process.returncode == 0 and len(results) == len(cases):
        return results
    if len(cases) == 1:
        return ["inconsistent"]
    half = len(cases) // 2
    return run_vectors(kind, cases[:half]) + run_vectors(kind, cases[half:])


def fault_offset(fault):
    return int(fault.rsplit(" ", 1)[1]) if " at " in fault else None


def check_result(capture, result):
    """The text in hex and the fault or None of a result of `norm`, and the law that the result breaks, or None."""
    if " " not in result:
        return "", None, result
    text, rest = result.split(" ", 1)
    size = len(text) // 2
    offset = fault_offset(rest)
    if offset is not None:
        if offset % 4 or offset >= len(capture):
            return text, rest, "a fault outside the capture"
        return text, rest, "a long text before a fault" if size > 77 * offset else None
    numbers = rest.split(" ")
    if len(numbers) != 3 or not all(word.isdigit() for word in numbers):
        return text, None, "a result of another format"
    if int(numbers[2]) != size:
        return text, None, "a text of another length"
    return text, None, "a long text" if size > 77 * len(capture) else None


def longest_frame(capture):
    return max((min(number(capture, at, 4), len(capture) - at) for at in frames(capture)), default=0)


def check_linkcap(limit, capture, text, fault):
    """The law that linkcap breaks, or None. It has to give this text and fault in an address space for the longest frame."""
    size = 32000000 + 100 * longest_frame(capture)
    process = subprocess.run([program("linkcap"), "norm", str(limit)], input=capture, capture_output=True,
                             preexec_fn=lambda: resource.setrlimit(resource.RLIMIT_AS, (size, size)))
    if process.returncode != (2 if fault else 0) or process.stderr.decode() != (fault + "\n" if fault else ""):
        return "linkcap reports another fault"
    return None if process.stdout.hex() == text else "linkcap writes another text"


def case_line(limit, *captures):
    return " ".join([str(limit), *captures]) + "\n"


def lines_of(cases):
    """The lines of each capture, without the outcome after them; None if the program ended with an error."""
    results = run_vectors("show", [case_line(limit, capture) for limit, capture in cases])
    return [None if result == "inconsistent" else "".join(result.splitlines(True)[:-1]) for result in results]


def lines_violations(cases, texts, counts):
    """(limit, capture, law) of each capture whose lines break a law, from the captures' normal texts in hex."""
    capture_lines = lines_of([(limit, capture.hex()) for limit, capture in cases])
    text_lines = lines_of([(limit, text) for (limit, _), text in zip(cases, texts)])
    violations = []
    for index, (limit, capture) in enumerate(cases):
        counts["captures shown"] += 1
        if capture_lines[index] is None or capture_lines[index] != text_lines[index]:
            violations.append((limit, capture.hex(), "the lines aren't those of the text"))
        are_equal = index % GROUP and texts[index] == texts[index - 1]
        if index % GROUP and (capture_lines[index] == capture_lines[index - 1]) != are_equal:
            violations.append((limit, capture.hex(), "the lines equal its neighbour's, or not, unlike the texts"))
    return violations


def check_chunk(job):
    """The counts of one chunk of captures, and (limit, capture, law) of each capture that breaks a law."""
    seed, sources = job
    counts, violations = collections.Counter(), []
    cases = [(limit, capture) for limit, siblings in groups(seed, sources) for capture in siblings]
    texts, text_cases, expected_texts, pair_cases, expected_pairs = [], [], [], [], []
    results = run_vectors("norm", [case_line(limit, capture.hex()) for limit, capture in cases])
    previous = None
    for index, ((limit, capture), result) in enumerate(zip(cases, results)):
        text, fault, law = check_result(capture, result)
        counts["captures"] += 1
        counts[fault.rsplit(" at ", 1)[0] if fault else "legal"] += 1
        if law is None and index % 1000 == 0:
            law = check_linkcap(limit, capture, text, fault)
            counts["runs of linkcap"] += 1
        if law:
            violations.append((limit, capture.hex(), law))
        texts.append(text)
        text_cases.append(case_line(limit, text))
        expected_texts.append((text, limit, capture))
        if fault:
            text_cases.append(case_line(limit, capture[:fault_offset(fault)].hex()))
            expected_texts.append((text, limit, capture))
        else:
            pair_cases.append(case_line(limit, capture.hex(), text))
            expected_pairs.append(("same", limit, capture))
        if index % GROUP:
            previous_text, previous_fault = previous
            pair_cases.append(case_line(limit, cases[index - 1][1].hex(), capture.hex()))
            expected = "first: " + previous_fault if previous_fault else "second: " + fault if fault else (
                "same" if previous_text == text else "different")
            expected_pairs.append((expected, limit, capture))
        previous = text, fault
    for result, (text, limit, capture) in zip(run_vectors("norm", text_cases), expected_texts):
        counts["texts and legal prefixes"] += 1
        if not result.startswith(text + " ") or fault_offset(result) is not None:
            violations.append((limit, capture.hex(), "a text or a legal prefix has another text"))
    violations += lines_violations(cases, texts, counts)
    for result, (expected, limit, capture) in zip(run_vectors("same", pair_cases), expected_pairs):
        counts["pairs"] += 1
        counts["pairs: " + (result.split(":")[0])] += 1
        if result != expected:
            violations.append((limit, capture.hex(), "a pair is %s, expected %s" % (result, expected)))
    return counts, violations


def main():
    seed, count = int(sys.argv[1]), int(sys.argv[2])
    sources = list(bases())
    chunks = max(1, count // (GROUP * GROUPS))
    counts, wrong = collections.Counter(), 0
    with multiprocessing.Pool(max(1, (os.cpu_count() or 2) - 1)) as pool:
        jobs = ((seed * 1000003 + chunk, sources) for chunk in range(chunks))
        for chunk_counts, violations in pool.imap_unordered(check_chunk, jobs):
            counts += chunk_counts
            wrong += len(violations)
            for limit, capture, law in violations[:5]:
                print("WRONG %s: %d %s" % (law, limit, capture), flush=True)
    for name, times in sorted(counts.items()):
        print("%9d %s" % (times, name))
    print("%9d wrong" % wrong)
    sys.exit(1 if wrong else 0)


if __name__ == "__main__":
    main()
