"""Tests of the calls, over the stored vectors and at the edges: `python3 -m unittest` in this folder, or pytest."""
import array
import doctest
import io
import json
import mmap
import os
import pickle
import tempfile
import threading
import time
import tracemalloc
import unittest
from typing import Any, Callable, Dict, List, Optional, SupportsIndex, Tuple

import linkcap
from linkcap import lines_json
from support import captures, cases, clear_numbers, deep_captures, header_constants, is_legal, means_the_same, results, sample, selected_lines

Result = Tuple[bytes, Optional[linkcap.Fault]]
Call = Callable[..., object]

# an IFLA_MTU of 3 bytes, in a message of 40 bytes; an NLMSG_DONE whose normal text has 4 bytes more
REFUSED = bytes.fromhex("28000000100000000000000000000000") + bytes(16) + bytes.fromhex("0700040001020300")
DONE = bytes.fromhex("10000000030002000000000000000000")


# keywords of `lines`, and what they select in the independent implementation
SELECTIONS: List[Tuple[Dict[str, Any], Dict[str, Any]]] = [
    ({"keep_going": True}, {"keep_going": True}),
    ({"offsets": True, "numbers": False}, {"offsets": True, "numbers": False}),
    ({"without": ["counters", "Indexes"]}, {"without": "counters,indexes"}),
    ({"without": ["numbers", "ifla_mtu"], "keep_going": True}, {"without": "numbers,IFLA_MTU", "keep_going": True}),
    ({"link": 2}, {"link": "2"}),
    ({"link": "lo", "keep_going": True, "offsets": True}, {"link": "lo", "keep_going": True, "offsets": True}),
    ({"only": ["newlink", "RTM_NEWADDR", 24], "offsets": True}, {"only": {16, 20, 24}, "offsets": True}),
]


def normalize(capture: bytes, limit: int) -> Result:
    try:
        return linkcap.normalize(capture, limit), None
    except linkcap.Fault as fault:
        return fault.written, fault


def selected_pieces(capture: bytes, size: int, options: Dict[str, Any]) -> Tuple[str, str]:
    """The lines of a capture in pieces that these keywords select, and the words of the first fault or ""."""
    reader, texts = linkcap.LineReader(**options), []
    try:
        for at in range(0, len(capture), size):
            texts.append(reader.feed(capture[at:at + size]))
        return "".join(texts) + reader.finish(), ""
    except linkcap.Fault as fault:
        return "".join(texts) + fault.written.decode(), fault.words


def normalize_pieces(capture: bytes, limit: int, size: int) -> Result:
    reader, texts = linkcap.Reader(limit), []
    try:
        for at in range(0, len(capture), size):
            texts.append(reader.feed(memoryview(capture)[at:at + size]))
        texts.append(reader.finish())
    except linkcap.Fault as fault:
        return b"".join(texts) + fault.written, fault
    return b"".join(texts), None


def all_messages(capture: bytes, limit: SupportsIndex) -> List[linkcap.Message]:
    return list(linkcap.messages(capture, limit))


def norm_line(capture: bytes, limit: int, text: bytes, fault: Optional[linkcap.Fault]) -> str:
    if fault is None:
        linkcap.check(capture, limit)
        numbers = linkcap.measure(capture, limit)
        assert len(all_messages(capture, limit)) == numbers.frames
        return f"{text.hex()} {numbers.frames} {numbers.attributes} {numbers.text_len}"
    calls: Tuple[Callable[[bytes, int], object], ...] = (linkcap.check, linkcap.measure, all_messages)
    for call in calls:
        try:
            call(capture, limit)
            raise AssertionError("a call that doesn't raise the fault")
        except linkcap.Fault as other:
            assert (other.kind, other.offset, other.side, other.why) == (fault.kind, fault.offset, None, fault.why)
    return f"{text.hex()} {fault.words}"


def load_tests(loader: unittest.TestLoader, tests: unittest.TestSuite, pattern: Optional[str]) -> unittest.TestSuite:
    """The tests, and the examples of docstrings."""
    for name in ("_calls", "_messages", "_reader", "lines_json"):
        tests.addTest(doctest.DocTestSuite(f"linkcap.{name}"))
    return tests


class Vectors(unittest.TestCase):
    maxDiff = 200

    def check_norm(self, run: Callable[[bytes, int, int], Result]) -> None:
        inputs, expected = captures("norm"), results("norm")
        self.assertEqual(len(inputs), len(expected))
        for number, ((limit, (capture,)), line) in enumerate(zip(inputs, expected)):
            self.assertEqual(norm_line(capture, limit, *run(capture, limit, number)) + "\n", line)

    def test_norm(self) -> None:
        self.check_norm(lambda capture, limit, number: normalize(capture, limit))

    def test_pieces(self) -> None:
        self.check_norm(lambda capture, limit, number: normalize_pieces(capture, limit, (1, 7, 100)[number % 3]))

    def test_same(self) -> None:
        inputs, expected = captures("same"), results("same")
        self.assertEqual(len(inputs), len(expected))
        for (limit, (first, second)), line in zip(inputs, expected):
            try:
                self.assertEqual("same\n" if linkcap.same(first, second, limit) else "different\n", line)
            except linkcap.Fault as fault:
                self.assertEqual({1: "first", 2: "second"}[fault.side or 0], fault.words.split(":")[0])
                self.assertEqual(fault.words + "\n", line)

    def test_same_without_numbers(self) -> None:
        """The result is that of the independent implementation for captures whose numbers are zero."""
        comparisons = 0
        for number, (limit, (first, second)) in enumerate(captures("same")):
            if not is_legal(first, limit) or not is_legal(second, limit):
                with self.assertRaises(linkcap.Fault):
                    linkcap.same(first, second, limit, numbers=False)
                continue
            # every second case gets other numbers
            renumbered = bytes(byte ^ (number & 1) if at in range(8, 16) else byte for at, byte in enumerate(second))
            expected = means_the_same(clear_numbers(first), clear_numbers(renumbered), limit)
            self.assertEqual(linkcap.same(first, renumbered, limit, numbers=False), expected, (limit, first, renumbered))
            comparisons += 1
        self.assertGreater(comparisons, 1000)

    def test_show(self) -> None:
        inputs, expected = cases("show"), results("show")
        self.assertEqual(len(inputs), len(expected))
        for case, result in zip(inputs, expected):
            limit, *choice, capture = case.split(" ")
            numbers = choice != ["without-numbers"]
            only = [int(kind) for kind in choice[0].split(",")] if choice and numbers else None
            try:
                text = linkcap.lines(bytes.fromhex(capture), int(limit), numbers=numbers, only=only) + "legal\n"
            except linkcap.Fault as fault:
                text = f"{fault.written.decode()}{fault.words}\n"
            self.assertTrue(text == result, case[:200])

    def test_lines_in_pieces(self) -> None:
        for number, (case, result) in enumerate(zip(cases("show"), results("show"))):
            limit, *choice, hex_capture = case.split(" ")
            numbers = choice != ["without-numbers"]
            only = [int(kind) for kind in choice[0].split(",")] if choice and numbers else None
            capture, size = bytes.fromhex(hex_capture), (1, 7, 100)[number % 3]
            reader, texts = linkcap.LineReader(int(limit), numbers=numbers, only=only), []
            try:
                for at in range(0, len(capture), size):
                    texts.append(reader.feed(capture[at:at + size]))
                texts += [reader.finish(), "legal\n"]
            except linkcap.Fault as fault:
                texts.append(f"{fault.written.decode()}{fault.words}\n")
            self.assertTrue("".join(texts) == result, case[:200])

    def test_json(self) -> None:
        """The library's JSON is what `lines_json` makes of lines: whole, in pieces, with offsets, and before a fault."""
        choices: List[Dict[str, Any]] = [{}, {"numbers": False}, {"offsets": True}, {"without": ["IFLA_IFNAME"]}]
        for name in ("get-veth", "lo-request", "notify-vrf", "req-veth"):
            capture = sample(name + ".bin")
            for options in choices:
                expected = list(lines_json.to_json(linkcap.lines(capture, **options).splitlines()))
                self.assertTrue(linkcap.to_json(capture, **options) == expected)
                reader = linkcap.LineReader(json=True, **options)
                text = "".join(reader.read_file(io.BytesIO(capture), 100))
                self.assertTrue(text == "".join(lines_json.dumps(message) + "\n" for message in expected))
        with self.assertRaises(linkcap.Fault) as raised:
            linkcap.to_json(DONE + REFUSED)
        written = raised.exception.written.decode("ascii")
        self.assertEqual([json.loads(line)["type"] for line in written.splitlines()], ["NLMSG_DONE"])

    def test_deep_captures(self) -> None:
        """Peers in peers and next hops in next hops, as deep as 65 kB allow, in a thread with a stack of 256 KiB."""
        for capture, expected in deep_captures():
            shown: List[str] = []

            def show(capture: bytes = capture) -> None:
                shown.append(linkcap.lines(capture))
                shown.append(json.dumps(linkcap.to_json(capture)))

            threading.stack_size(256 << 10)
            try:
                thread = threading.Thread(target=show)
                thread.start()
            finally:
                threading.stack_size(0)
            thread.join()
            self.assertEqual(len(shown), 2)
            self.assertTrue(shown[0] == expected)
            self.assertLessEqual(len(shown[0]), 44 * len(capture))

    def test_quirks(self) -> None:
        inputs, expected = captures("spelling"), results("spelling")
        self.assertEqual(len(inputs), len(expected))
        for (limit, (capture,)), line in zip(inputs, expected):
            try:
                quirks = linkcap.quirks(capture, limit)
            except linkcap.Fault as fault:
                self.assertTrue(line.endswith(f"{fault.words}\n"), line)
                quirks = linkcap.quirks(capture[:fault.offset], limit)
                line = line.replace(f"{fault.words}\n", "legal\n")
            self.assertEqual("".join(f"{quirk.words}; " for quirk in quirks) + "legal\n", line)
            for quirk in quirks:
                self.assertTrue(quirk.words.endswith(f" at {quirk.offset}"))

    def test_why(self) -> None:
        inputs, expected = captures("refusal"), results("refusal")
        self.assertEqual(len(inputs), len(expected))
        for (limit, (capture,)), line in zip(inputs, expected):
            refusal = linkcap.why(capture, limit)
            self.assertEqual((refusal.words if refusal else "nothing") + "\n", line)
            if refusal:
                self.check_reason(capture, limit, refusal)

    def check_reason(self, capture: bytes, limit: int, refusal: linkcap.Refusal) -> None:
        """Each call that raises the fault has this reason, also a reader, which keeps only the bytes of the last message."""
        self.assertEqual(refusal.words.endswith(f" at {refusal.offset}"), refusal.offset is not None)
        with self.assertRaises(linkcap.Fault) as raised:
            linkcap.check(capture, limit)
        self.assertEqual((raised.exception.kind, raised.exception.why), (linkcap.Kind.REFUSED, refusal))
        self.assertEqual(str(raised.exception), f"{raised.exception.words}: {refusal.words}")
        for fault in (normalize(capture, limit)[1], normalize_pieces(capture, limit, 61)[1]):
            assert fault is not None
            self.assertEqual((fault.kind, fault.why), (linkcap.Kind.REFUSED, refusal))


class Edges(unittest.TestCase):
    def test_nothing(self) -> None:
        empty: Tuple[linkcap.Capture, ...] = (b"", bytearray(), memoryview(b""), array.array("I"))
        for nothing in empty:
            self.assertEqual(linkcap.normalize(nothing), b"")
            self.assertEqual(linkcap.lines(nothing), "")
            self.assertEqual(linkcap.measure(nothing), (0, 0, 0))
            self.assertEqual(list(linkcap.messages(nothing)), [])
            self.assertTrue(linkcap.same(nothing, b""))
        self.assertEqual(linkcap.Reader().finish(), b"")

    def test_limits(self) -> None:
        calls: Tuple[Call, ...] = (
            linkcap.check, linkcap.measure, linkcap.normalize, linkcap.lines, linkcap.why, linkcap.messages, linkcap.quirks,
            linkcap.attributes)
        for limit in (15, 0, -1, 1 << 32, True):
            for call in calls:
                with self.assertRaises(ValueError):
                    call(b"", limit)
            with self.assertRaises(ValueError):
                linkcap.same(b"", b"", limit)
            with self.assertRaises(ValueError):
                linkcap.Reader(limit)
        self.assertEqual(linkcap.normalize(DONE, 20).hex(), "1400000003000200000000000000000000000000")
        with self.assertRaises(linkcap.Fault) as raised:
            linkcap.normalize(DONE, 19)
        self.assertEqual((raised.exception.kind, raised.exception.offset), (linkcap.Kind.TEXT_OVER_LIMIT, 0))
        with self.assertRaises(TypeError):
            linkcap.check(b"", 20.0)  # type: ignore[arg-type]

    def test_limit_with_an_index(self) -> None:
        class Limit:
            def __index__(self) -> int:
                return 19

        calls: Tuple[Call, ...] = (linkcap.normalize, linkcap.check, linkcap.measure, linkcap.lines, all_messages)
        for call in calls:
            with self.assertRaises(linkcap.Fault):
                call(DONE, Limit())
        with self.assertRaises(linkcap.Fault):
            linkcap.Reader(Limit()).feed(DONE)
        self.assertIsNone(linkcap.why(DONE, Limit()))

    def test_cut_at_each_byte(self) -> None:
        capture = sample("req-veth.bin")
        starts, at = [], 0
        while at < len(capture):
            starts.append(at)
            at += (int.from_bytes(capture[at:at + 4], "little") + 3) // 4 * 4
        for cut in range(len(capture) + 1):
            piece = capture[:cut]
            whole = max((start for start in [*starts, len(capture)] if start <= cut), default=0)
            text, fault = normalize(piece, linkcap.DEFAULT_LIMIT)
            last = int.from_bytes(capture[whole:whole + 4], "little")
            if whole < cut < whole + last:
                assert fault is not None
                self.assertEqual((text, fault.kind, fault.offset), (capture[:whole], linkcap.Kind.CUT, whole))
            else:
                self.assertIsNone(fault)
                self.assertEqual(text, capture[:(cut + 3) // 4 * 4])
            self.assertEqual(normalize_pieces(piece, linkcap.DEFAULT_LIMIT, 33)[0], text)

    def test_objects(self) -> None:
        capture = sample("notify-vrf.bin")
        text = linkcap.normalize(capture)
        self.assertNotEqual(text, capture)
        self.assertTrue(linkcap.same(capture, text))
        with tempfile.TemporaryFile() as file:
            file.write(capture)
            file.flush()
            with mmap.mmap(file.fileno(), 0, access=mmap.ACCESS_READ) as mapping:
                self.assertEqual(linkcap.normalize(mapping), text)
                self.assertEqual(list(linkcap.messages(mapping)), list(linkcap.messages(capture)))
        others: Tuple[linkcap.Capture, ...] = (
            bytearray(capture), memoryview(capture), array.array("I", capture), memoryview(capture).cast("I"))
        for other in others:
            self.assertEqual(linkcap.normalize(other), text)
            reader = linkcap.Reader()
            self.assertEqual(reader.feed(other) + reader.feed(b"") + reader.finish(), text)
        reader = linkcap.Reader()
        self.assertEqual(reader.feed(array.array("I", capture[:1000])) + reader.feed(capture[1000:]) + reader.finish(), text)
        with self.assertRaises(BufferError):
            linkcap.normalize(memoryview(capture)[::2])
        with self.assertRaises(TypeError):
            linkcap.normalize("a text")  # type: ignore[arg-type]

    def test_numpy(self) -> None:
        try:
            import numpy
        except ImportError:
            self.skipTest("no numpy")
        capture = sample("notify-vrf.bin")
        text = linkcap.normalize(capture)
        for kind in ("u1", "<u4", ">u2"):
            numbers = numpy.frombuffer(capture, kind)
            self.assertEqual(linkcap.normalize(numbers), text)
            reader = linkcap.Reader()
            self.assertEqual(reader.feed(numbers[:25]) + reader.feed(numbers[25:]) + reader.finish(), text)

    def test_faults(self) -> None:
        capture = sample("lo-request.bin")
        with self.assertRaises(linkcap.Fault) as raised:
            linkcap.normalize(capture + capture[:20])
        fault = raised.exception
        self.assertEqual((str(fault), fault.words), ("cut frame at 48", "cut frame at 48"))
        self.assertEqual((fault.kind, fault.offset, fault.side, len(fault.written), fault.why), (linkcap.Kind.CUT, 48, None, 48, None))
        copy = pickle.loads(pickle.dumps(fault))
        self.assertEqual((copy.kind, copy.offset, copy.side, copy.written), (fault.kind, 48, None, fault.written))
        with self.assertRaises(linkcap.Fault) as raised:
            linkcap.same(capture, capture[:-1])
        self.assertEqual(str(raised.exception), "second: cut frame at 0")
        reader = linkcap.Reader()
        self.assertEqual(len(reader.feed(capture)), 48)
        with self.assertRaises(linkcap.Fault) as raised:
            reader.feed(bytes(16))
        self.assertEqual(str(raised.exception), "length under 16 at 48")
        with self.assertRaises(ValueError):
            reader.feed(b"")

    def test_reasons(self) -> None:
        capture, reason = sample("lo-request.bin"), ": IFLA_MTU: a payload of 3 bytes at "
        with self.assertRaises(linkcap.Fault) as raised:
            linkcap.lines(capture + REFUSED)
        self.assertEqual(str(raised.exception), "refused body at 48" + reason + "80")
        copy = pickle.loads(pickle.dumps(raised.exception))
        self.assertEqual((str(copy), copy.why), (str(raised.exception), raised.exception.why))
        for first, second, words in ((REFUSED, capture, "first: refused body at 0"), (capture, capture + REFUSED, "second: refused body at 48")):
            with self.assertRaises(linkcap.Fault) as raised:
                linkcap.same(first, second)
            assert raised.exception.why is not None
            self.assertEqual(str(raised.exception), f"{words}{reason}{raised.exception.why.offset}")
        reader = linkcap.Reader()
        reader.feed(capture + REFUSED[:9])
        with self.assertRaises(linkcap.Fault) as raised:
            reader.feed(REFUSED[9:])
        self.assertEqual(str(raised.exception), "refused body at 48" + reason + "80")

    def test_same_without_numbers(self) -> None:
        capture = sample("lo-request.bin")
        for at in range(4, 48):
            other = bytearray(capture)
            other[at] ^= 1
            try:
                is_same = linkcap.same(capture, other, numbers=False)
            except linkcap.Fault:
                continue
            # netlink.h, struct nlmsghdr: the sequence number and the port ID are the bytes 8 to 16
            self.assertEqual(is_same, 8 <= at < 16 or linkcap.same(capture, other), at)
            self.assertEqual(is_same, linkcap.lines(capture, numbers=False) == linkcap.lines(other, numbers=False))
        with self.assertRaises(linkcap.Fault) as raised:
            linkcap.same(capture, REFUSED, numbers=False)
        self.assertEqual((raised.exception.side, str(raised.exception)[:24]), (2, "second: refused body at 0"[:24]))
        assert raised.exception.why is not None

    def test_quirk_of_a_header(self) -> None:
        capture = bytearray(sample("lo-request.bin"))
        self.assertEqual(linkcap.quirks(capture), [])
        capture[17] = 1
        expected = linkcap.Quirk(linkcap.QuirkKind.HEADER_BYTE, 17, "second byte of the header of RTM_GETLINK at 17")
        self.assertEqual(linkcap.quirks(capture), [expected])
        self.assertEqual(len(linkcap.quirks(bytes(capture) * 40)), 40)
        self.assertEqual(linkcap.quirks(linkcap.normalize(capture)), [])

    def test_selections(self) -> None:
        """The lines and the fault are those of the independent implementation, also in pieces."""
        samples = [sample(f"{name}.bin") for name in ("lo-request", "req-veth", "req-routes", "notify-vrf")]
        for capture in [*samples, REFUSED.join(samples), samples[0] + REFUSED + samples[0][:20]]:
            for options, choice in SELECTIONS:
                expected = selected_lines(capture, **choice)
                try:
                    result = linkcap.lines(capture, **options), ""
                except linkcap.Fault as fault:
                    result = fault.written.decode(), fault.words
                self.assertTrue(result == expected, options)
                for size in (1, 7, 16, 4096):
                    self.assertTrue(selected_pieces(capture, size, options) == expected, (size, options))

    def test_faults_of_a_line_reader(self) -> None:
        """With keep_going the first fault is raised at the end, or at a fault of a header; it has its reason."""
        capture = sample("lo-request.bin")
        for last, kind in ((b"", None), (capture[:20], linkcap.Kind.CUT), (bytes(16), linkcap.Kind.SHORT_LENGTH)):
            reader = linkcap.LineReader(keep_going=True)
            self.assertEqual(reader.feed(capture[:17]), "")
            self.assertTrue(reader.feed(capture[17:] + REFUSED + DONE + REFUSED).endswith(REFUSED[16:].hex() + "\n"))
            with self.assertRaises(linkcap.Fault) as raised:
                reader.feed(last)
                reader.finish()
            fault = raised.exception
            assert fault.why is not None
            self.assertEqual((fault.kind, fault.offset, fault.written), (linkcap.Kind.REFUSED, len(capture), b""), kind)
            self.assertEqual(fault.why.offset, len(capture) + 32)
            with self.assertRaises(ValueError):
                reader.feed(capture)
        with self.assertRaisesRegex(ValueError, "no attribute or group is called 'mtu'"):
            linkcap.LineReader(without=["mtu"])

    def test_invalid_selections(self) -> None:
        capture = sample("lo-request.bin")
        for options, words in (({"without": ["mtu"]}, "no attribute or group is called 'mtu'"),
                               ({"without": ["numbers", "\xe4"]}, "is called '\xe4'"),
                               ({"without": ["IFLA_MTU,IFLA_GROUP"]}, "is no name"),
                               ({"without": [""]}, "is no name"),
                               ({"without": ["IFLA_MTU"] * 33}, "at most 32"),
                               ({"only": range(33), "offsets": True}, "at most 32"),
                               ({"only": []}, "no message type: leave it out"),
                               ({"only": [], "offsets": True}, "no message type: leave it out"),
                               ({"link": ""}, "a name or an index")):
            with self.assertRaisesRegex(ValueError, words):
                linkcap.lines(capture, **options)  # type: ignore[arg-type]
        with self.assertRaisesRegex(TypeError, "without is a list"):
            linkcap.lines(capture, without="numbers")
        for call in (linkcap.lines, linkcap.to_json, linkcap.LineReader, linkcap.attributes):
            with self.assertRaisesRegex(TypeError, "unexpected keyword argument 'onyl'"):
                call(capture, onyl=["getlink"])  # type: ignore[operator]
        with self.assertRaisesRegex(TypeError, "unexpected keyword argument 'json'"):
            linkcap.to_json(capture, json=True)
        for name in ("numbers", "offsets", "keep_going", "json"):
            with self.assertRaisesRegex(TypeError, f"unexpected keyword argument '{name}'"):
                linkcap.attributes(capture, **{name: True})  # type: ignore[arg-type]
        for wrong in ({"link": b"lo"}, {"link": ["lo"]}, {"link": 1.0}, {"link": True}, {"link": object()}, {"only": b"getlink"},
                      {"only": bytearray(b"\x12")}, {"only": ["getlink", b"getlink"]}, {"only": [18.0]}, {"without": b"numbers"},
                      {"without": [b"numbers"]}, {"without": ["numbers", 3]}):
            with self.assertRaises(TypeError, msg=str(wrong)):
                linkcap.lines(capture, **wrong)  # type: ignore[arg-type]
            with self.assertRaises(TypeError, msg=str(wrong)):
                linkcap.LineReader(**wrong)  # type: ignore[arg-type]

    def test_line_reader(self) -> None:
        capture = sample("lo-request.bin")
        reader = linkcap.LineReader(numbers=False, only=["newlink"])
        self.assertEqual(reader.feed(capture) + reader.finish(), "")
        with self.assertRaises(linkcap.Fault) as raised:
            linkcap.LineReader().feed(capture + REFUSED)
        self.assertEqual(raised.exception.written, sample("lo-request.lines"))
        with self.assertRaises(linkcap.Fault) as raised:
            linkcap.LineReader(only=["newlink"]).feed(capture + REFUSED)
        self.assertEqual(raised.exception.written, b"")
        self.assertEqual("".join(linkcap.LineReader().read_file(io.BytesIO(capture), 5)), sample("lo-request.lines").decode())

    def test_lines_of_a_long_capture_need_little_memory(self) -> None:
        """A reader takes memory for a piece and its lines, and not for the whole capture."""
        capture, length = sample("req-veth.bin"), 0
        reader = linkcap.LineReader()
        tracemalloc.start()
        for _ in range(2000):
            length += len(reader.feed(capture))
        most = tracemalloc.get_traced_memory()[1]
        tracemalloc.stop()
        self.assertEqual(length, 2000 * len(sample("req-veth.lines")))
        self.assertLess(most, 100 * len(sample("req-veth.lines")))

    def test_threads(self) -> None:
        capture = sample("get-veth.bin")
        text, lines, wrong = linkcap.normalize(capture), linkcap.lines(capture), []

        def run() -> None:
            for _ in range(30):
                if linkcap.normalize(capture) != text or linkcap.lines(capture) != lines or not linkcap.same(capture, text):
                    wrong.append(1)

        threads = [threading.Thread(target=run) for _ in range(8)]
        for thread in threads:
            thread.start()
        for thread in threads:
            thread.join()
        self.assertEqual(wrong, [])


class Messages(unittest.TestCase):
    def test_headers(self) -> None:
        capture = sample("lo-request.bin")
        # the numbers that samples/lo-request.lines has
        message = linkcap.Message(0, capture, 18, 0x301, 1526271540, 0)
        self.assertEqual(list(linkcap.messages(capture)), [message])
        self.assertEqual(list(linkcap.messages(capture * 3)), [message._replace(offset=offset) for offset in (0, 48, 96)])
        unpadded = bytes.fromhex("11000000140000000200000000000000") + b"a"
        self.assertEqual([message.bytes for message in linkcap.messages(unpadded + bytes(3) + DONE)], [unpadded, DONE])
        self.assertEqual(list(linkcap.messages(DONE)), [linkcap.Message(0, DONE, 3, 2, 0, 0)])

    def test_parts_are_captures(self) -> None:
        capture = sample("get-veth.bin")
        messages = list(linkcap.messages(capture))
        self.assertGreater(len(messages), 1)
        texts = [linkcap.normalize(one.bytes) for one in messages]
        self.assertEqual(b"".join(texts), linkcap.normalize(capture))

    def test_only_by_name(self) -> None:
        capture = DONE + sample("lo-request.bin")
        getlink = linkcap.lines(capture, only=[18])
        self.assertTrue(getlink.startswith("RTM_GETLINK "))
        for name in ("getlink", "GETLINK", "RTM_GETLINK", "rtm_getlink"):
            self.assertEqual(linkcap.lines(capture, only=[name]), getlink)
        self.assertEqual(linkcap.lines(capture, only=["nlmsg_done", "getlink"]), linkcap.lines(capture))
        with self.assertRaisesRegex(ValueError, "no message type"):
            linkcap.lines(capture, only=[])
        with self.assertRaisesRegex(ValueError, "no message type 'setlnk'"):
            linkcap.lines(capture, only=["setlnk"])
        with self.assertRaisesRegex(ValueError, "65536"):
            linkcap.lines(capture, only=[65536])
        with self.assertRaisesRegex(TypeError, "only is a list"):
            linkcap.lines(capture, only="getlink")

    def test_names_are_the_headers(self) -> None:
        from linkcap._types import NAMES
        constants = dict(header_constants("NLMSG_", "netlink.h") + header_constants("RTM_", "rtnetlink.h"))
        if not constants:
            self.skipTest("no kernel headers")
        for name, number in NAMES.items():
            word = ("NLMSG_" if number < 16 else "RTM_") + name.upper()
            if word in constants:
                self.assertEqual(constants[word], number)
            message = bytes([20, 0, 0, 0, number]) + bytes(15) if number < 16 else bytes([32, 0, 0, 0, number]) + bytes(27)
            if name not in ("error",):
                self.assertTrue(linkcap.lines(message).startswith(word + " "), name)


class Readers(unittest.TestCase):
    def test_files(self) -> None:
        capture = sample("get-veth.bin")
        text = linkcap.normalize(capture)
        path = os.path.join(os.path.dirname(os.path.abspath(__file__)), "..", "..", "..", "samples", "get-veth.bin")
        for size in (1, 100, 1 << 16):
            with open(path, "rb") as file:
                self.assertEqual(b"".join(linkcap.Reader().read_file(file, size)), text)
        with open(os.devnull, "rb") as file:
            self.assertEqual(list(linkcap.Reader().read_file(file)), [])
        for size in (0, -1):
            with self.assertRaisesRegex(ValueError, "at least 1"):
                list(linkcap.Reader().read_file(io.BytesIO(DONE), size))
        with open(path, "rb") as file:
            file.seek(48)
            with self.assertRaises(linkcap.Fault):
                list(linkcap.Reader().read_file(file))
        with open(path, encoding="latin-1") as text_file:
            with self.assertRaises(TypeError):
                list(linkcap.Reader().read_file(text_file))  # type: ignore[arg-type]

    def test_wrong_pieces_change_nothing(self) -> None:
        capture, reader = sample("req-veth.bin"), linkcap.Reader()
        texts = reader.feed(capture[:60])
        with self.assertRaises(TypeError):
            reader.feed("text")  # type: ignore[arg-type]
        self.assertEqual(texts + reader.feed(capture[60:]) + reader.finish(), capture)

    def test_linear(self) -> None:
        """The time for a message that comes byte by byte is linear in its length."""
        def seconds(length: int) -> float:
            message = length.to_bytes(4, "little") + b"\x14" + bytes(length - 5)
            reader, start = linkcap.Reader(), time.process_time()
            for at in range(length):
                text = reader.feed(message[at:at + 1])
            self.assertEqual(text, message)
            return time.process_time() - start

        seconds(1 << 12)
        small, great = (min(seconds(length) for _ in range(3)) for length in (1 << 15, 1 << 18))
        self.assertLess(great, 24 * small)


if __name__ == "__main__":
    unittest.main()
