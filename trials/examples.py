#!/usr/bin/env python3
"""Solves the examples with the built program, and compares with the answers that stand beside them.

    python3 trials/examples.py [--program FILE]

Each folder of examples/ that holds a file `answer` is copied, solved and checked in the copy. What differs is printed, and
the status is 1 where anything does. The answers were found by trials/plain_solver.py. The gate does not run it.
"""
import argparse
import os
import shutil
import subprocess
import sys
import tempfile

ROOT = os.path.dirname(os.path.dirname(os.path.abspath(__file__)))
EXAMPLES = os.path.join(ROOT, "examples")


def call(binary, folder, *words):
    done = subprocess.run([binary, *words], cwd=folder, capture_output=True, check=False)
    return done.returncode, done.stdout.decode("ascii")


def verdict(answer):
    lines = answer.split("\n")
    return f"optimal {lines[1]}" if lines[0] == "optimal" else lines[0]


def difference(binary, folder):
    names = os.listdir(folder)
    prefix = next(name[: -len(".lb")] for name in names if name.endswith(".lb"))
    relations = ["--rel"] if prefix + ".rel" in names else []
    with open(os.path.join(folder, "answer"), encoding="ascii") as file:
        wanted = file.read()
    solved = call(binary, folder, "solve", prefix, *relations)
    if solved != (0, wanted):
        return f"solve answers {solved}"
    checked = call(binary, folder, "check", prefix, *relations)
    if checked != (0, f"yes {verdict(wanted)}\n"):
        return f"check answers {checked}"
    return ""


def main():
    parser = argparse.ArgumentParser(description="Solves the examples and compares with their answers.")
    parser.add_argument("--program", default=os.path.join(ROOT, "crates", "nfold", "out", "nfold"))
    binary = os.path.abspath(parser.parse_args().program)
    bad = 0
    for name in sorted(os.listdir(EXAMPLES)):
        if not os.path.exists(os.path.join(EXAMPLES, name, "answer")):
            continue
        with tempfile.TemporaryDirectory() as copies:
            folder = shutil.copytree(os.path.join(EXAMPLES, name), os.path.join(copies, name))
            found = difference(binary, folder)
        print(f"{name}: {found or 'as it should be'}")
        bad += found != ""
    return int(bad > 0)


if __name__ == "__main__":
    sys.exit(main())
