"""Times a call over a capture on standard input, by processor time: `calls.py NAME SECONDS < CAPTURE`, as calls.c does.

The name `pyroute2` is its parsing.
"""
import sys
import time


def call_of(name, capture):
    if name == "pyroute2":
        from pyroute2.netlink.rtnl.marshal import MarshalRtnl
        marshal = MarshalRtnl()
        return lambda: list(marshal.parse(capture))
    import linkcap
    call = getattr(linkcap, name)
    return (lambda: call(capture, capture)) if name == "same" else lambda: call(capture)


def main():
    call, seconds, count = call_of(sys.argv[1], sys.stdin.buffer.read()), float(sys.argv[2]), 1
    while True:
        begin = time.process_time()
        for _ in range(count):
            call()
        took = time.process_time() - begin
        if took >= seconds:
            break
        count *= 2
    print("%.1f" % (took / count * 1e9))


main()
