#!/usr/bin/env python3
"""Runs what README.md and docs/ show, and compares what it prints: `shown.py`. Each shown command begins with `$ `, and the lines
up to the next one are what it has to print on standard output. It also sees that the manual page says what `sr help` says.

Build `sr` first, with `./sr`. A command whose first word isn't on this machine is passed over, and named.
"""
import glob
import os
import re
import shutil
import subprocess
import sys

TOP = os.path.dirname(os.path.dirname(os.path.abspath(__file__)))


def blocks(path):
    """The lines of each fenced block of a file."""
    lines = None
    with open(path) as it:
        for line in it.read().splitlines():
            if line.startswith("```"):
                if lines is not None:
                    yield lines
                lines = [] if lines is None else None
            elif lines is not None:
                lines.append(line)


def commands(lines):
    """Each command of a block that shows some, with the lines that it is to print."""
    shown = []
    for line in lines:
        if line.startswith("$ "):
            shown.append((line[2:], []))
        elif shown:
            shown[-1][1].append(line)
    return shown


def plain(text):
    return re.sub(r"\s+", " ", text.replace("\u2010", "-").replace("\u2212", "-")).strip()


def manual_differs():
    """The sentences of help that the manual page lacks."""
    page = subprocess.run(["man", "-l", f"{TOP}/docs/sr.1"], capture_output=True, text=True, env={**os.environ, "MANWIDTH": "200"})
    page = plain(re.sub(".\b", "", page.stdout))
    lacking = []
    for topic in ("check", "trim", "demo"):
        said = subprocess.run([f"{TOP}/sr", "help", topic], capture_output=True, text=True).stdout
        # an option and its meaning, or a paragraph
        for part in re.split(r"\n\n|\n(?=--)", said):
            option = re.match(r"(--\S+(?: [A-Z]+| binary)?) {2,}(.*)", part, re.S)
            part = option.group(2) if option else part
            for sentence in re.split(r"(?<=[.:]) ", plain(part)):
                if sentence.startswith("sr ") or sentence in page:
                    continue
                if sentence.startswith("The status") or sentence.startswith("It is 1") or sentence.startswith("formula."):
                    continue
                lacking.append(f"{topic}: {sentence}")
    return lacking


def main():
    bad = 0
    count = 0
    for path in sorted([f"{TOP}/README.md", *glob.glob(f"{TOP}/docs/*.md")]):
        for lines in blocks(path):
            for command, wanted in commands(lines):
                words = [w for w in command.split() if "=" not in w]
                if not shutil.which(words[0]) and not os.path.exists(f"{TOP}/{words[0]}"):
                    print(f"passed over, since {words[0]} isn't here: {command}")
                    continue
                count += 1
                ran = subprocess.run(["sh", "-c", command], cwd=TOP, capture_output=True, text=True)
                if ran.stdout.splitlines() != wanted:
                    bad += 1
                    print(f"{os.path.relpath(path, TOP)}: {command}\n  prints {ran.stdout!r}\n  and not {wanted!r}")
    lacking = manual_differs() if shutil.which("man") else []
    for line in lacking:
        print(f"docs/sr.1 lacks what help says of {line}")
    print(f"{count} commands, {bad} of them print something else; {len(lacking)} sentences of help aren't in docs/sr.1")
    sys.exit(1 if bad or lacking else 0)


main()
