#!/usr/bin/env python3
"""Normalises files on the workers of a Dask farm, and writes one line about each to standard output.

    samples/norm_farm.py --workers 2 captures/*.bin > report.tsv                  by processes on this machine
    samples/norm_farm.py --scheduler tcp://HOST:8786 captures/*.bin > report.tsv  on a running farm
    find captures -name '*.bin' | samples/norm_farm.py --workers 2 - > report.tsv

Each task runs `norm_one.sh`, in this script's folder, on one file, and returns its line: the status, the file and the
fault. So each worker needs the program, and this folder and the files under the same names. Lines are written as the tasks
end, in any order. The status is 0 if it is 0 for every file. It needs Dask's distributed, as in Debian's
python3-distributed.
"""
import argparse
import os
import subprocess
import sys

try:
    from distributed import Client, LocalCluster, as_completed
except ImportError:  # reported in main, so that --help works
    Client = None

NORM_ONE = os.path.join(os.path.dirname(os.path.realpath(__file__)), "norm_one.sh")


def norm(file):
    """The line about one file."""
    return subprocess.run([NORM_ONE, file], stdout=subprocess.PIPE, text=True).stdout


def lines(client, files):
    """The line about each file, in the order in which the tasks end."""
    tasks = client.map(norm, files, pure=False)
    for _, line in as_completed(tasks, with_results=True):
        yield line


def connect(args):
    if args.scheduler:
        return Client(args.scheduler)
    return Client(LocalCluster(n_workers=args.workers, threads_per_worker=1, dashboard_address=None))


def main():
    parser = argparse.ArgumentParser(description=__doc__, formatter_class=argparse.RawDescriptionHelpFormatter)
    farm = parser.add_mutually_exclusive_group(required=True)
    farm.add_argument("--scheduler", metavar="ADDRESS")
    farm.add_argument("--workers", type=int, metavar="NUMBER")
    parser.add_argument("files", nargs="+", metavar="FILE", help="- for names on standard input, one a line")
    args = parser.parse_args()
    if Client is None:
        sys.exit("there is no distributed: install Dask's, as Debian's python3-distributed")
    files = sys.stdin.read().splitlines() if args.files == ["-"] else args.files
    failed = False
    with connect(args) as client:
        for line in lines(client, [os.path.abspath(file) for file in files]):
            sys.stdout.write(line)
            failed |= not line.startswith("0\t")
    sys.exit(failed)


if __name__ == "__main__":
    main()
