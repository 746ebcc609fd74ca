#!/usr/bin/env python3
"""Compares what two programs wrote of a replay script: first_difference.py NAME SCRIPT EXPECTED GOT

Says how many events agreed, or shows the first line that differs, with the lines of the script up to the one that
wrote it. Ends with 1 at a difference.
"""
import re
import sys

EVENTS = {b"write", b"read", b"clocks", b"card", b"insert", b"lines", b"event"}


def lines_written(command, answer):
    """How many lines a command writes, by its first word and the first line that was written of it."""
    if answer.startswith(b"line "):
        return 1
    return {b"pages": 2, b"state": 5}.get(command, 1)


def short(line):
    text = line.decode("ascii", "backslashreplace")
    return text if len(text) <= 160 else f"{text[:140]}.. ({len(text)} bytes)"


def shown(expected, got):
    """Both lines, from a little before the first byte that differs."""
    at = next((i for i, (a, b) in enumerate(zip(expected, got)) if a != b), min(len(expected), len(got)))
    start = max(0, at - 60) if max(len(expected), len(got)) > 160 else 0
    front = f"(from byte {start}) " if start else ""
    for who, line in (("expected", expected), ("got", got)):
        print(f"  {who:8} {front}{line[start:start + 160].decode('ascii', 'backslashreplace')}")


def main():
    name, script_path, expected_path, got_path = sys.argv[1:]
    script, expected, got = (open(path, "rb").read().split(b"\n") for path in (script_path, expected_path, got_path))
    events = at = 0
    for i, line in enumerate(script):
        words = [word for word in re.split(rb"[ \t\r]", line.split(b"#")[0]) if word]
        if not words and len(line) <= 4096:
            continue
        count = lines_written(words[0] if words else b"", expected[at])
        for k in range(at, at + count):
            there = got[k] if k < len(got) else b""
            if expected[k] != there or k >= len(got):
                print(f"{name}: line {i + 1} of the script differs, line {k + 1} of what was written; {events} events agreed before it")
                fitted = max((j for j in range(i) if script[j].startswith((b"fit", b"resume"))), default=0)
                for j in sorted({fitted, *range(max(0, i - 8), i + 1)}):
                    print(f"  {j + 1}: {short(script[j])}")
                shown(expected[k], there)
                return 1
        at += count
        if words and words[0] in EVENTS and not expected[at - 1].startswith(b"line "):
            events += 1
    if len(got) != len(expected):
        print(f"{name}: {len(got) - 1} lines were written, and {len(expected) - 1} were expected")
        return 1
    print(f"{name}: {events} events and {len(expected) - 1} lines agree")
    return 0


if __name__ == "__main__":
    sys.exit(main())
