#!/usr/bin/env python3
"""Makes the cases of bench/languages.sh, and compares the results of programs with those that are stored.

    bench/languages.py cases SEED                  prints cases of crates/vectors over 5,000 captures that bench/hostile.py makes
    bench/languages.py cut KIND CASES RESULTS      writes the stored cases and results of a kind to files
    bench/languages.py programs FOLDER             runs linkcap and linkshow of FOLDER/*/out on the stored cases

Each capture is normalised, compared with its neighbour, and shown: one in three without numbers, and one in three with link
messages alone. Its quirks are listed, and the reason of a refusal.
"""
import multiprocessing
import os
import subprocess
import sys
import tempfile

TOP = os.path.join(os.path.dirname(os.path.abspath(__file__)), "..")
sys.path.insert(0, os.path.join(TOP, "tools", "oracle"))
import hostile              # noqa: E402
import vectors              # noqa: E402

CHOICES = ["", "without-numbers ", "16,17,18,19 "]
PROGRAM_KINDS = ["norm", "same", "show"]


def print_cases(seed):
    captures = [(limit, capture.hex()) for limit, siblings in hostile.groups(seed, list(hostile.bases())) for capture in siblings]
    norm = ["%d %s" % case for case in captures]
    same = ["%d %s %s" % (limit, captures[index - 1][1], capture) for index, (limit, capture) in enumerate(captures)]
    show = ["%d %s%s" % (limit, CHOICES[index % len(CHOICES)], capture) for index, (limit, capture) in enumerate(captures)]
    for kind, cases in ("norm", norm), ("same", same), ("spelling", norm), ("refusal", norm), ("show", show):
        print("# mutations by bench/hostile.py, seed %d" % seed)
        for case in cases:
            print(kind, case)


def cut(kind, cases, results):
    with open(cases, "w", encoding="utf-8") as file:
        file.writelines(str(case) + "\n" for case in vectors.cases(kind))
    with open(results, "w", encoding="utf-8") as file:
        file.writelines(str(result) for result in vectors.results(kind))


def norm_run(limit, result):
    """The command of a case, its output, and what it reports, by its result."""
    text, words = result.rstrip("\n").split(" ", 1)
    return ["linkcap", "norm", limit], bytes.fromhex(text), words if " at " in words else ""


def same_run(limit, files, result):
    words = result.rstrip("\n")
    return ["linkcap", "same", *files, limit], *((b"", words) if " at " in words else (result.encode(), ""))


def show_run(limit, choice, result, reason):
    options = {"": [], "without-numbers": ["--without-numbers"]}.get(choice, ["--only", choice])
    *lines, outcome = result.splitlines()
    if outcome == "legal":
        report = "" if lines else "no messages"
    else:
        report = outcome if reason == "nothing" else outcome + ": " + reason
    return ["linkshow", *options, "--limit", limit], "".join(line + "\n" for line in lines).encode(), report


def gives_result(job):
    """Whether a program gives the result of a case, given the reason of a refusal."""
    folder, kind, case, result, reason = job
    limit, *words = case.split(" ")
    with tempfile.TemporaryDirectory() as place:
        files = [os.path.join(place, name) for name in ("first", "second")]
        for name, capture in zip(files, words[-2:] if kind == "same" else words[-1:]):
            with open(name, "wb") as file:
                file.write(bytes.fromhex(capture))
        if kind == "norm":
            command, text, report = norm_run(limit, result)
        elif kind == "same":
            command, text, report = same_run(limit, files, result)
        else:
            command, text, report = show_run(limit, words[0] if len(words) == 2 else "", result, reason)
        with open(files[0], "rb") as capture:
            process = subprocess.run([os.path.join(folder, command[0], "out", command[0]), *command[1:]], stdin=capture,
                                     stdout=subprocess.PIPE, stderr=subprocess.PIPE)
    status = 2 if " at " in report else 1 if text == b"different\n" else 0
    return (process.stdout, process.stderr.decode(), process.returncode) == (text, report + "\n" if report else "", status)


def run_programs(folder):
    """Prints the number of runs, and the cases whose results differ. Returns whether there are none."""
    reasons = [str(result).rstrip("\n") for result in vectors.results("refusal")]
    jobs = [(folder, kind, str(case), str(result), reason) for kind in PROGRAM_KINDS
            for case, result, reason in zip(vectors.cases(kind), vectors.results(kind), reasons)]
    with multiprocessing.Pool() as pool:
        results = pool.map(gives_result, jobs, 100)
    wrong = [job for job, is_right in zip(jobs, results) if not is_right]
    for _, kind, case, *_ in wrong[:5]:
        print("WRONG:", kind, case)
    print("%d runs, %d differ" % (len(jobs), len(wrong)))
    return bool(jobs) and not wrong


def main():
    command, *arguments = sys.argv[1:]
    if command == "cases":
        print_cases(int(arguments[0]))
    elif command == "cut":
        cut(*arguments)
    else:
        sys.exit(0 if run_programs(*arguments) else 1)


if __name__ == "__main__":
    main()
