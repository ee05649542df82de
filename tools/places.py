#!/usr/bin/env python3
"""Places in src/ that an older way of writing leaves, by the eight points of docs/DESIGN-PASS.md.

    python3 tools/places.py [COMMIT]        counts, at a commit or as the files are
    python3 tools/places.py -v N [COMMIT]   the places of point N

It lists candidates, by form alone; the page says which are places.
"""
import collections
import io
import re
import subprocess
import sys
import tarfile

NONE_LIKE = r"Nothing|No[A-Z]\w*|None\w+|Unsent|Reserved|Whole|End|Never|Blank|Absent|Missing|Refused|Bad|Ready|Failed|Unreadable"


def files(commit, ending):
    if commit:
        data = subprocess.run(["git", "archive", commit, "crates"], capture_output=True, check=True).stdout
        with tarfile.open(fileobj=io.BytesIO(data)) as tar:
            return {m.name: tar.extractfile(m).read().decode() for m in tar if m.isfile() and m.name.endswith(ending)}
    names = subprocess.run(["git", "ls-files", "-co", "--exclude-standard", "crates"], capture_output=True, text=True, check=True).stdout.split("\n")
    found = {}
    for n in names:
        if n.endswith(ending):
            try:
                found[n] = open(n, encoding="utf-8").read()
            except FileNotFoundError:
                pass
    return found


def sources(commit):
    return {n: t for n, t in files(commit, ".rt").items() if "/src/" in n}


def lines(src, pattern):
    rx = re.compile(pattern)
    return [f"{n}:{i}: {l.strip()}" for n, t in sorted(src.items()) for i, l in enumerate(t.split("\n"), 1)
            if rx.search(l) and not l.strip().startswith("//") and "ghost use" not in l]


def functions(src):
    """name, file, line, header, body"""
    for n, t in sorted(src.items()):
        ls = t.split("\n")
        i = 0
        while i < len(ls):
            m = re.match(r"(\s*)(?:pub(?:\([a-z]+\))? |final )*(?:extern \"C\" )?fn (\w+)", ls[i])
            if m and not ls[i].rstrip().endswith(";"):
                j = i
                while j < len(ls) and ls[j] != m.group(1) + "}" and not ls[j].rstrip().endswith("{}"):
                    j += 1
                text = ls[i:j + 1]
                head = [l for l in text if re.match(r"\s*(requires|ensures|fn |pub |final )", l)]
                yield m.group(2), n, i + 1, head, text
                i = j
            i += 1


def options(src):
    out = lines(src, rf"^\s*({NONE_LIKE})(\(.*\)|\s*\{{.*)?,$")
    out += lines(src, r"Result<(bool|Option<)")
    out += [f"{n}:{i}: fn {f} changes and answers a flag" for f, n, i, h, t in functions(src)
            if "&mut self" in t[0] + t[1] and any("-> bool" in l for l in t[:9])]
    out += lines(src, r"^\s*(pub )?(number|result|cause|kind|layer|place|stretch|why): (u8|usize|Cause),")
    out += lines(src, r"const NO_\w+")
    out += lines(src, r"fn (number|number_of|of_block|of_activation|agreed_by|layer_number|hurimpas_\w+)\b")
    return out


def twins(src, least=6):
    """pairs of runs of code lines that are alike but for names and values"""
    shape = {}
    for n, t in sorted(src.items()):
        kept = []
        if "_tests/" in n:  # tables of cases
            continue
        for i, l in enumerate(t.split("\n"), 1):
            s = l.strip()
            if not s or s.startswith(("//", "use ", "ghost use", "pub use", "mod ", "#", "requires", "ensures")) or re.fullmatch(r"[\[\](){};,]*|[NIRDW, ]*|Kind::\w+,.*|(pub )?\w+(: [^({]*)?,", s):
                continue
            s = re.sub(r'b?"[^"]*"|0x[0-9A-Fa-f]+|\b\d+\b', "0", s)
            kept.append((i, re.sub(r"\b(?!fn\b|pub\b|let\b|match\b|if\b|else\b|return\b|impl\b|struct\b|enum\b|for\b|while\b|mut\b|self\b|Some\b|None\b|Ok\b|Err\b)[A-Za-z_]\w*", "x", s)))
        shape[n] = kept
    where = collections.defaultdict(list)
    for n, kept in shape.items():
        for k in range(len(kept) - least + 1):
            where[tuple(s for _, s in kept[k:k + least])].append((n, k))
    pairs = set()
    for at in where.values():
        if 2 <= len(at) <= 8:
            for a in range(len(at)):
                for b in range(a + 1, len(at)):
                    (n, k), (m, j) = at[a], at[b]
                    if n != m or abs(k - j) >= least:
                        pairs.add((n, shape[n][k][0], m, shape[m][j][0]))
    runs, seen = [], set()
    for n, i, m, j in sorted(pairs):
        if not any((n, i - d, m, j - e) in seen for d in range(1, 8) for e in range(1, 8)):
            runs.append(f"{n}:{i} ~ {m}:{j}")
        seen.add((n, i, m, j))
    return runs


def loops(src):
    out = lines(src, r"^\s*while ") + lines(src, r"^\s*loop\b") + lines(src, r"for \w+ in (0\w*|1|\w+)\.\.")
    out += [f"{n}:{i}: fn {f} calls itself" for f, n, i, h, t in functions(src)
            if any(re.search(rf"(?<![\w.:>]){f}\(", l) for l in t[1:] if not re.match(r"\s*(requires|ensures|//)", l))]
    return out


def by_hand(src):
    out = lines(src, r"=> (true|false),$") + lines(src, r"^\s*None => (None|0|true|false),") + lines(src, r"Err\((\w+)\) => (return )?Err\(")
    out += lines(src, r"Some\((\w+)\) => Some\(|Ok\((\w+)\) => Ok\(")
    out += lines(src, r"fn (of|copied|bytes|cause|number|has_number|either|is_spelled|bit_of|reply_number|after_\w+|says_word|card_word|letter|push_\w+|\w+_text)\b")
    out += lines(src, r"\bas (u8|u16|u32|u64|usize)\b")
    return out


def repeated(src):
    facts, params = collections.defaultdict(set), collections.defaultdict(set)
    for f, n, i, head, text in functions(src):
        for l in head:
            m = re.match(r"\s*(requires|ensures) (?:\w+ )?\{ (.*) \}", l)
            if m:
                facts[m.group(1) + " " + re.sub(r"\.(old|now|new|entry)", "", m.group(2))].add((n, f))
        sig = " ".join(text[:14])
        m = re.search(r"fn \w+(?:<[^(]*?>)?\(([^)]*)\)", sig)
        ps = [re.sub(r"'\w+ ?|\s+", lambda x: "" if x.group(0)[0] == "'" else " ", p).strip() for p in (m.group(1) if m else "").split(",") if ":" in p]
        for a in range(len(ps)):
            for b in range(a + 1, len(ps)):
                params[ps[a] + " + " + ps[b]].add((n, f))
    return [f"{len(v)} {k}" for d in (facts, params) for k, v in sorted(d.items(), key=lambda kv: -len(kv[1])) if len(v) >= 3]


def lengths(src):
    return lines(src, r"^\s*(pub )?\w*len: usize,|reply: Option<usize>") + lines(src, r"out: &mut Vec<u8>") + lines(src, r"count: usize|code: usize")


def switches(src):
    out = lines(src, r"match take\(|match self\.take\(")
    for f, n, i, h, t in functions(src):
        calls = collections.Counter(m.group(1) for l in t for m in [re.search(r"=> (?:\w+\()?(?:Some\()?\w+\.(\w+)\(", l)] if m)
        out += [f"{n}:{i}: fn {f} calls {c} in {k} arms" for c, k in calls.items() if k >= 3]
    return out


def proofs(commit):
    per = collections.Counter()
    for n, t in files(commit, ".antt").items():
        if "/proofs/" in n:
            c = n.split("/")[1]
            per[c, "lines"] += t.count("\n")
            per[c, "answers"] += len(re.findall(r"(?m)^pub \S+ : goal\.", t))
    return [f"{c}: {per[c, 'answers']} answers, {per[c, 'lines']} lines" for c in sorted({c for c, _ in per})]


POINTS = [("enums like Option and Result, flags, numbers", options), ("twins", twins), ("loops by hand", loops), ("by hand", by_hand),
          ("facts and parameters that repeat", repeated), ("lengths beside", lengths), ("switches", switches)]


def main(args):
    shown = int(args.pop(1)) if args[:1] == ["-v"] else 0
    args = args[1:] if shown else args
    commit = args[0] if args else None
    src = sources(commit)
    for k, (name, find) in enumerate(POINTS, 1):
        found = find(src)
        if shown in (0, k):
            print(f"{k} {name}: {len(found)}")
        if shown == k:
            print("\n".join("  " + p for p in found))
    found = proofs(commit)
    if shown in (0, 8):
        print(f"8 proofs: {sum(int(p.split()[1]) for p in found)} answers, {sum(int(p.split()[3]) for p in found)} lines")
    if shown == 8:
        print("\n".join("  " + p for p in found))


main(sys.argv[1:])
