#!/usr/bin/env python3
"""Compares ntcheck with a second reader on random sheets.

The second reader is the grammar written as two regular expressions, with and without \\u and \\U, matched in
part: the first place where a line cannot go on is the shortest prefix that no line begins with. It needs the Python
package `regex` (Debian: python3-regex), for partial matches, and a built ntcheck (rt run in crates/ntcheck builds it).

usage: scripts/fuzz_reader.py [ROUNDS [SEED]]
"""
import random
import subprocess
import sys

import regex

# as rt run builds it, from the top of the repository
PROGRAM = "crates/ntcheck/out/ntcheck"

IRI_CHAR = rb"[!#-;=?-\[\]_a-z~\x7f]"
STRING_CHAR = rb"[\x00-\x09\x0b\x0c\x0e-!#-\[\]-\x7f]"
ECHAR = rb"\\[tbnrf\"'\\]"
UCHAR = rb"\\u[0-9A-Fa-f]{4}|\\U[0-9A-Fa-f]{8}"


def line_pattern(escapes):
    more = b"|" + UCHAR if escapes else b""
    iri = rb"<(?:" + IRI_CHAR + more + rb")*>"
    label = rb"_:[0-9A-Z_a-z]+"
    string = rb"\"(?:" + STRING_CHAR + rb"|" + ECHAR + more + rb")*\""
    literal = string + rb"(?:@[A-Za-z]+(?:-[0-9A-Za-z]+)*|\^\^" + iri + rb")?"
    ws = rb"[ \t]*"
    triple = rb"(?P<s>" + iri + rb"|" + label + rb")" + ws + rb"(?P<p>" + iri + rb")" + ws + rb"(?P<o>" + iri + rb"|" + label + rb"|" + literal + rb")" + ws + rb"\."
    return regex.compile(ws + rb"(?:" + triple + ws + rb")?(?:#[\x00-\x09\x0b\x0c\x0e-\x7f]*)?", regex.DOTALL)


PART, FULL = line_pattern(False), line_pattern(True)


def begins(pattern, prefix):
    return pattern.fullmatch(prefix, partial=True) is not None


def goes_on(prefix):
    if begins(PART, prefix):
        return True
    return prefix.endswith(b"\\") and begins(PART, prefix[:-1]) and begins(FULL, prefix)


def spelled_length(token):
    if token.startswith(b"_"):
        return 0
    if token.startswith(b"<"):
        return len(token)
    end = regex.match(rb"\"(?:[^\"\\]|\\.)*\"", token, regex.DOTALL).end()
    value = regex.sub(rb"\\(.)", lambda m: {b"t": b"\t", b"b": b"\b", b"n": b"\n", b"r": b"\r", b"f": b"\f"}.get(m[1], m[1]), token[1 : end - 1], flags=regex.DOTALL)
    escaped = sum(2 if c in b"\n\r\"\\" else 1 for c in value)
    return 2 + escaped + len(token) - end


def judge(line, base):
    m = PART.fullmatch(line)
    if m:
        if m["s"] is None:
            return "comment" if line.strip(b" \t") else "empty"
        for name in "spo":
            if spelled_length(m[name]) > 255:
                return (4, base + m.start(name))
        return "triple"
    for k in range(len(line)):
        if not goes_on(line[: k + 1]):
            c = line[k]
            return (1 if c > 127 else 2 if begins(FULL, line[: k + 1]) else 3, base + k)
    return (3, base + len(line))


def survey(text):
    counts = {"triple": 0, "comment": 0, "empty": 0}
    found, number, pos, after_cr = [], 0, 0, False
    while pos < len(text):
        end = pos
        while end < len(text) and text[end] not in b"\n\r":
            end += 1
        if not (after_cr and end == pos and text[pos : pos + 1] == b"\n"):
            number += 1
            verdict = judge(text[pos:end], pos)
            if isinstance(verdict, str):
                counts[verdict] += 1
            else:
                found.append((number, verdict[1], verdict[0]))
        after_cr = text[end : end + 1] == b"\r"
        pos = end + 1
    return number, counts, found


def told(text, program):
    out = subprocess.run([program], input=text, capture_output=True, check=True).stdout.decode()
    head, *rest = out.splitlines()
    lines, triples, comments, empty, _ = [int(x) for x in regex.findall(r"\d+", head)]
    found = [tuple(int(x) for x in regex.match(r"line (\d+), offset (\d+): refused (\d+):", r).groups()) for r in rest]
    return lines, {"triple": triples, "comment": comments, "empty": empty}, found


TERMS = [b"<a>", b"<>", b"_:x", b'"v"', b'"v"@en-GB', b'"v"^^<d>', b'"\\t\\"\\\\"', b'"\\u0041"', b"<\\u0041>", b'"\xc3\xa9"', b"_:", b'"' + b"x" * 253 + b'"', b'"' + b"\\n" * 126 + b'x"', b'"' + b"\\'" * 254 + b'"', b"<" + b"i" * 254 + b">"]
BITS = [b" ", b"\t", b".", b"#", b"\\", b'"', b"<", b">", b"_", b":", b"@", b"^", b"-", b"u", b"U", b"n", b"\x00", b"\x7f", b"\x80", b"\xff", b"0", b"{", b"a", b"'"]


def sheet(rng):
    parts = []
    for _ in range(rng.randrange(6)):
        line = b"".join(rng.choice(TERMS) + rng.choice([b"", b" ", b"  \t"]) for _ in range(3)) + b"." if rng.random() < 0.8 else rng.choice([b"", b" \t", b"# note", b"#\xe9"])
        for _ in range(rng.choice([0, 0, 1, 1, 2])):
            at = rng.randrange(len(line) + 1)
            line = line[:at] + rng.choice(BITS) + line[at + rng.randrange(2) :]
        parts.append(line + rng.choice([b"\n", b"\r\n", b"\r", b"\n", b""]))
    return b"".join(parts)


def main():
    rounds = int(sys.argv[1]) if len(sys.argv) > 1 else 2000
    rng = random.Random(int(sys.argv[2]) if len(sys.argv) > 2 else 1)
    for i in range(rounds):
        text = sheet(rng)
        if told(text, PROGRAM) != survey(text):
            print("differs on", text, told(text, PROGRAM), survey(text))
            sys.exit(1)
    print(f"{rounds} sheets, no difference")


if __name__ == "__main__":
    main()
