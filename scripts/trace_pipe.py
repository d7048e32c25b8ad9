"""The pipe through which strace writes its trace: it holds strace back, so that linkrec sees the kernel as it is at each line.

strace writes when a call begins and when it ends, before the traced thread goes on. The pipe takes one such piece at a time: to
write the next one strace waits until the piece before was read. So while a piece is in the pipe, no call that begins after it
has begun: what linkrec asks the kernel then, before it reads the piece, is what that call finds.
"""
import ctypes
import fcntl
import os
import select
import time

PIPE_SIZE = 4096  # a page, the least size of a pipe
SET_PIPE_SIZE = 1031  # F_SETPIPE_SZ, linux/fcntl.h
PIDFD_OPEN, PIDFD_GETFD = 434, 438  # asm-generic/unistd.h, the same on each processor
POLL_INTERVAL = 0.001
BLOCK = 1 << 16  # more than a piece
_libc = ctypes.CDLL(None, use_errno=True)


class TracePipe:
    """A pipe for a trace. `write_end` is passed to strace, which opens it anew by `path`."""

    def __init__(self):
        self.read_end, self.write_end = os.pipe2(os.O_CLOEXEC | os.O_DIRECT)
        self.path = f"/dev/fd/{self.write_end}"
        self.holds_back = False
        fcntl.fcntl(self.read_end, SET_PIPE_SIZE, PIPE_SIZE)
        os.write(self.write_end, b"\n")  # so that strace waits until it is held back

    def start(self, process):
        """Holds back strace, which is or becomes the process, and lets it begin. Where the kernel doesn't permit that, the
        trace may come late, and `holds_back` is False."""
        while process.poll() is None and not (descriptors := self._opened(process.pid)):
            time.sleep(POLL_INTERVAL)
        os.close(self.write_end)
        self.holds_back = process.poll() is None and all([_write_in_pieces(process.pid, number) for number in descriptors])

    def _opened(self, process):
        """The descriptors of this pipe that a process has opened itself."""
        folder, name = f"/proc/{process}/fd", os.readlink(f"/proc/self/fd/{self.read_end}")
        try:
            numbers = [int(number) for number in os.listdir(folder) if int(number) != self.write_end]
            return [number for number in numbers if os.readlink(f"{folder}/{number}") == name]
        except OSError:
            return []

    def lines(self, before_piece):
        """The lines of the trace, each with the number of the piece in which it begins. Calls `before_piece` with the number
        of each piece while it is in the pipe."""
        rest, rest_stamp, stamp = b"", 0, 0
        while select.select([self.read_end], [], [])[0]:
            stamp += 1
            before_piece(stamp)
            piece = os.read(self.read_end, BLOCK)
            if not piece:
                break
            rest_stamp = rest_stamp if rest else stamp
            *whole, rest = (rest + piece).split(b"\n")
            for line in whole:
                yield rest_stamp, line.decode(errors="replace")
                rest_stamp = stamp
        os.close(self.read_end)


def _write_in_pieces(process, number):
    """Makes each write of a process to a pipe a piece of its own (O_DIRECT), and returns whether the kernel permits that."""
    process_descriptor = _libc.syscall(PIDFD_OPEN, process, 0)
    descriptor = _libc.syscall(PIDFD_GETFD, process_descriptor, number, 0)
    if process_descriptor >= 0:
        os.close(process_descriptor)
    if descriptor < 0:
        return False
    fcntl.fcntl(descriptor, fcntl.F_SETFL, fcntl.fcntl(descriptor, fcntl.F_GETFL) | os.O_DIRECT)
    os.close(descriptor)
    return True
