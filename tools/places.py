#!/usr/bin/env python3
"""Lists, at a commit, the places in crates/*/src that a reader judges kind by kind in docs/DESIGN-PASS.md.

    tools/places.py COMMIT [KIND]

Enums, loops, hand, buffers and switches are lines that a pattern finds; twins is what the tool `duplicates` finds, if it is
there, among the same files; together are clauses, and pairs of parameters, that stand in three functions or more; proofs
counts answers and lines."""
import collections, os, re, shutil, subprocess, sys, tempfile

KINDS = ["enums", "twins", "loops", "hand", "together", "buffers", "switches", "proofs"]

PATTERNS = {
    "enums": r"^\s*(pub(\(crate\))? )?enum |fn (number|place|at)\(|const ROWS|(Err|Ok|Some)\([a-z_]*\) => (Err|Ok|Some|None|true|false|end ==)"
       r"|^\s*(None|Err\(_\)) => (Err|None|false|true)|if let Err|let Some\(.*else \{$",
    "loops": r"^\s*(while|for|loop)\b",
    "hand": r"\bas (u8|u16|u32|u64|usize|Code|TermNumber)\b|fn (is_same|row|reason_of|code|decoded|at_base)\(|=> (true|false),$",
    "buffers": r"\b(len|count|at|end|next): usize",
    "switches": r"\bdyn |: fn\(|Box<|Form::[A-Z]",
}


def files(commit, pattern):
    out = subprocess.run(["git", "ls-tree", "-r", "--name-only", commit], capture_output=True, text=True, check=True).stdout
    return [f for f in out.split() if re.match(pattern, f)]


def text(commit, name):
    return subprocess.run(["git", "show", f"{commit}:{name}"], capture_output=True, text=True, check=True).stdout


def functions(source):
    """Each function's name, parameters and clauses."""
    found = []
    for m in re.finditer(r"\bfn (\w+)[^(]*\(([^)]*)\)", source):
        found.append((m.start(), m.group(1), re.findall(r"(\w+): ([^,\n]+)", m.group(2)), []))
    for m in re.finditer(r"^\s*(?:requires|ensures)\*? ?\w* ?\{(.*)\}[;\s]*$", source, re.M):
        before = [f for f in found if f[0] < m.start()]
        if before:
            before[-1][3].append(m.group(1).strip())
    return [f[1:] for f in found]


def main():
    commit = sys.argv[1]
    wanted = sys.argv[2] if len(sys.argv) > 2 else None
    sources = {f: text(commit, f) for f in files(commit, r"crates/\w+/src/.*\.rt$")}
    for kind in KINDS:
        if wanted not in (None, kind):
            continue
        rows = []
        if kind in PATTERNS:
            for f, s in sources.items():
                for n, line in enumerate(s.split("\n"), 1):
                    if re.search(PATTERNS[kind], line) and not line.strip().startswith("//"):
                        rows.append(f"{f}:{n}: {line.strip()}")
        elif kind == "twins" and shutil.which("duplicates"):
            with tempfile.TemporaryDirectory() as d:
                for f, s in sources.items():
                    path = os.path.join(d, f[:-3] + ".rs")
                    os.makedirs(os.path.dirname(path), exist_ok=True)
                    open(path, "w").write(s)
                out = subprocess.run(["duplicates", "--min-lines", "5", "--most", "60"], cwd=d, capture_output=True, text=True)
                rows = [l for l in out.stdout.split("\n") if re.match(r"D\d", l)]
        elif kind == "together":
            clauses, pairs = collections.defaultdict(set), collections.defaultdict(set)
            for f, s in sources.items():
                for name, params, cs in functions(s):
                    for c in cs:
                        c = re.sub(r"\b(from|pos)\b", "from", c)
                        clauses[c].add((f, name))
                    ps = sorted("from: usize" if p == "pos" else f"{p}: {t}" for p, t in params if p != "rt")
                    for i in range(len(ps)):
                        for j in range(i + 1, len(ps)):
                            pairs[(f.split("/")[1], ps[i], ps[j])].add((f, name))
            rows += [f"clause in {len(w)} functions: {c}" for c, w in clauses.items() if len(w) > 2]
            rows += [f"parameters of {len(w)} functions of {c}: {a}, {b}" for (c, a, b), w in pairs.items() if len(w) > 2]
        elif kind == "proofs":
            names = files(commit, r"crates/\w+/proofs/.*\.antt$")
            answers, lines, own = 0, 0, 0
            for f in names:
                s = text(commit, f)
                lines += s.count("\n")
                if f.endswith("Answers.antt"):
                    own += 1
                    answers += len(re.findall(r"^pub \S+ : goal\.", s, re.M))
            rows = [f"{len(names)} files of proofs, {lines} lines; {own} of them files of answers, with {answers} answers"]
        print(f"{kind}: {len(rows)}")
        for r in rows:
            print("  " + r)


main()
