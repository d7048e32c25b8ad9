"""Tests of calls that are interrupted by other calls: `python3 -m unittest` in this folder, or pytest."""
import gc
import os
import signal
import sys
import time
import types
import unittest
from typing import Any, Callable, List, Optional

import linkcap
from support import sample

FOLDER = os.path.dirname(os.path.abspath(linkcap.__file__))
REQUEST, OTHER = sample("req-veth.bin"), sample("lo-request.bin")
# an IFLA_MTU of 3 bytes
REFUSED = bytes.fromhex("28000000100000000000000000000000") + bytes(16) + bytes.fromhex("0700040001020300")

Call = Callable[[], Any]


def in_pieces(capture: bytes) -> bytes:
    reader = linkcap.Reader()
    return reader.feed(capture[:50]) + reader.feed(capture[50:]) + reader.finish()


def lines_in_pieces(capture: bytes) -> str:
    reader = linkcap.LineReader()
    return reader.feed(capture[:50]) + reader.feed(capture[50:]) + reader.finish()


def with_quirk(capture: bytes) -> bytes:
    """A capture after an RTM_GETLINK in whose header the second byte isn't 0."""
    return bytes.fromhex("20000000120001030000000000000000") + b"\0\1" + bytes(14) + capture


def fault_of(capture: bytes) -> str:
    try:
        linkcap.check(capture)
    except linkcap.Fault as fault:
        return str(fault)
    return "legal"


def calls(capture: bytes, other: bytes) -> List[Call]:
    """All calls that may be interrupted, over a capture and a different one."""
    return [
        lambda: linkcap.check(capture),
        lambda: linkcap.measure(capture),
        lambda: linkcap.normalize(capture),
        lambda: linkcap.normalize(bytearray(capture)),
        lambda: linkcap.same(capture, other),
        lambda: linkcap.same(capture, capture),
        lambda: linkcap.lines(capture),
        lambda: linkcap.lines(capture, numbers=False, only=["newlink", "getlink"]),
        lambda: list(linkcap.messages(capture)),
        lambda: linkcap.why(REFUSED + capture),
        lambda: fault_of(capture + capture[:20]),
        lambda: fault_of(REFUSED + capture),
        lambda: in_pieces(capture),
        lambda: linkcap.same(capture, other, numbers=False),
        lambda: lines_in_pieces(capture),
        lambda: linkcap.quirks(with_quirk(capture)),
        lambda: next(linkcap.messages(capture)).attributes(),
        lambda: next(linkcap.attributes(capture)),
    ]


def call_all() -> None:
    """Interrupts with all calls, whose results differ from those of the interrupted call."""
    for call in calls(OTHER, REQUEST):
        call()


class Reentry(unittest.TestCase):
    def setUp(self) -> None:
        self.calls = calls(REQUEST, OTHER)
        self.expected = [call() for call in self.calls]
        self.assertEqual(self.expected[2], REQUEST)
        self.assertEqual(self.expected[6], sample("req-veth.lines").decode())
        self.assertEqual(self.expected[14], self.expected[6])
        self.assertEqual([quirk.offset for quirk in self.expected[15]], [17])
        self.assertEqual(self.expected[11], "refused body at 0: IFLA_MTU: a payload of 3 bytes at 32")

    def test_at_each_instruction(self) -> None:
        """A trace function makes all calls before each instruction of the package."""
        interruptions = [0]

        def trace(frame: types.FrameType, event: str, argument: Any) -> Optional[Callable[..., Any]]:
            if os.path.dirname(frame.f_code.co_filename) != FOLDER:
                return None
            frame.f_trace_opcodes = True
            # Python 3.12.1 has no events of instructions in the first frame that is traced.
            if event in ("line", "opcode"):
                interruptions[0] += 1
                call_all()
            return trace

        for call, expected in zip(self.calls, self.expected):
            before = interruptions[0]
            sys.settrace(trace)
            try:
                result = call()
            finally:
                sys.settrace(None)
            self.assertEqual(result, expected)
            self.assertGreater(interruptions[0], before)

    def test_finaliser(self) -> None:
        """The garbage collector runs finalisers that make all calls."""
        finalisers = [0]

        class Connection:
            def __init__(self) -> None:
                self.cycle = self

            def __del__(self) -> None:
                finalisers[0] += 1
                call_all()

        threshold = gc.get_threshold()
        gc.set_threshold(5)
        try:
            for _ in range(300):
                for call, expected in zip(self.calls, self.expected):
                    Connection()
                    self.assertEqual(call(), expected)
        finally:
            gc.set_threshold(*threshold)
        gc.collect()
        self.assertGreater(finalisers[0], 1000)

    def test_signal_handler(self) -> None:
        """A signal handler makes all calls, at various times of each call."""
        signals = [0]

        def handle(number: int, frame: Optional[types.FrameType]) -> None:
            signals[0] += 1
            call_all()

        previous, turn, end = signal.signal(signal.SIGALRM, handle), 0, time.monotonic() + 60
        try:
            while signals[0] < 1000 and time.monotonic() < end:
                turn += 1
                for call, expected in zip(self.calls, self.expected):
                    signal.setitimer(signal.ITIMER_REAL, 0.00001 + 0.000002 * (turn % 40))
                    self.assertEqual(call(), expected)
        finally:
            signal.setitimer(signal.ITIMER_REAL, 0)
            signal.signal(signal.SIGALRM, previous)
        self.assertGreaterEqual(signals[0], 1000)

    def test_reader_in_use(self) -> None:
        """Calls of a reader that is interrupted raise RuntimeError and don't change it."""
        reader, errors = linkcap.Reader(), [0]

        def trace(frame: types.FrameType, event: str, argument: Any) -> Optional[Callable[..., Any]]:
            if frame.f_code.co_name not in ("_feed", "_write", "_advance"):
                return None if os.path.dirname(frame.f_code.co_filename) != FOLDER else trace
            frame.f_trace_opcodes = True
            if event == "opcode":
                try:
                    reader.feed(OTHER)
                except RuntimeError:
                    errors[0] += 1
            return trace

        text = b""
        for piece in (REQUEST[:10], REQUEST[10:70], REQUEST[70:]):
            sys.settrace(trace)
            try:
                text += reader.feed(piece)
            finally:
                sys.settrace(None)
        self.assertEqual(text + reader.finish(), REQUEST)
        self.assertGreater(errors[0], 100)

    def test_reader_that_was_interrupted(self) -> None:
        """After a handler raised an exception in a reader, the reader has ended, unless the call hadn't begun."""
        outcomes = set()
        for number in range(1, 900):
            reader, at = linkcap.Reader(), [number]

            def trace(frame: types.FrameType, event: str, argument: Any) -> Optional[Callable[..., Any]]:
                # Whoever is interrupted after the last line of `feed` has its result.
                step = "line" if frame.f_code.co_name == "feed" else "opcode"
                if frame.f_code.co_name in ("feed", "_begin", "_feed", "_write", "_advance", "take", "_result", "__exit__"):
                    frame.f_trace_opcodes = step == "opcode"
                    at[0] -= event == step
                    if at[0] == 0:
                        raise KeyboardInterrupt
                return trace if os.path.dirname(frame.f_code.co_filename) == FOLDER else None

            text = reader.feed(REQUEST[:60])
            sys.settrace(trace)
            try:
                text += reader.feed(REQUEST[60:])
                outcomes.add("whole")
            except KeyboardInterrupt:
                sys.settrace(None)
                outcomes.add(self.after_an_interruption(reader, text))
                continue
            finally:
                sys.settrace(None)
            self.assertEqual(text + reader.finish(), REQUEST)
            break
        self.assertEqual(outcomes, {"not begun", "ended", "whole"})

    def after_an_interruption(self, reader: linkcap.Reader, text: bytes) -> str:
        """What became of a reader whose call for the rest of a capture was interrupted, after it had returned a text."""
        try:
            text += reader.feed(REQUEST[60:])
        except ValueError:
            self.assertRaises(ValueError, reader.finish)
            return "ended"
        self.assertEqual(text + reader.finish(), REQUEST)
        return "not begun"

    def test_interrupted_by_an_exception(self) -> None:
        """A call in which a handler raises an exception releases its capture."""
        capture, at = bytearray(REQUEST), [0]

        def trace(frame: types.FrameType, event: str, argument: Any) -> Optional[Callable[..., Any]]:
            if os.path.dirname(frame.f_code.co_filename) != FOLDER:
                return None
            frame.f_trace_opcodes = True
            if event == "opcode":
                at[0] -= 1
                if at[0] == 0:
                    raise KeyboardInterrupt
            return trace

        for number in range(1, 400):
            at[0] = number
            sys.settrace(trace)
            try:
                linkcap.normalize(capture)
                break
            except KeyboardInterrupt:
                pass
            finally:
                sys.settrace(None)
            # A borrowed bytearray can't be resized.
            capture += b"\0\0\0\0"
            del capture[-4:]
        self.assertGreater(number, 20)
        self.assertLess(number, 399)


if __name__ == "__main__":
    unittest.main()
