#!/usr/bin/env python3
"""Names in backticks in README.md and docs/PROMISES.md, DECISIONS.md, PROVING.md that nothing in the tree has: names.py TREE [FILE..] [--strict] [--crates]
Known are: words of the code (crates/*/src, specs, proofs), crates, must-fail edits, files and folders, commands, and words of the other files of the tree that are code (tools, bindings,
include, command, examples, run ..); with --strict the last are listed too. Candidates only: a name in backticks may be one of the Rust's, of the library's or of the format's. A path that is no file is one too.
--crates  also names that stand behind a crate's name (`CRATE \\`name\\``) and that this crate has not, though another has"""
import os
import re
import shutil
import subprocess
import sys

FILES = ("README.md", "docs/PROMISES.md", "docs/DECISIONS.md", "docs/PROVING.md")
NAME = re.compile(r"[^\W\d][\w'₀-₉-]*(?:-[\w']+)*")
COMMANDS = {"rt", "python3", "python", "cargo", "git", "sh", "bash", "cc", "clang", "ar", "nm", "cd", "cp", "mv", "ls", "make", "apt-get", "apt", "pip", "grep", "sed", "awk", "tar", "diff", "sha256sum", "perf", "valgrind", "callgrind", "mutool", "gs", "pdftoppm"}
KEYWORDS = set("""abstract as async await bool box break char const continue crate do dyn else enum extern f32 f64 false fn for i8 i16 i32 i64 if impl in let loop match mod move mut pub ref return
self Self static str String struct super trait true type u8 u16 u32 u64 u128 i128 unsafe use usize isize where while Vec Option Result Some None Ok Err Box Rc Cow std core alloc no_std
requires ensures ghost invariant decreases abbrev unfoldable unfolding record data module where omega arith cc rw""".split())


def words(text):
    out = set()
    for m in re.finditer(r"[^\s(){}\[\],;.:\"/|&*<>=!?`+%^~@#\\]+", text):
        w = m[0]
        out.add(w)
        out.add(w.strip("'-_"))
        out.update(re.split(r"[-']", w))
    out.update(re.findall(r"[A-Za-z_]\w*", text))
    return out


def tracked(root):
    try:
        r = subprocess.run(["git", "-C", root, "ls-files"], capture_output=True, text=True)
        if r.returncode == 0 and r.stdout:
            return r.stdout.split("\n")[:-1]
    except OSError:
        pass
    out = []
    for folder, dirs, names in os.walk(root):
        dirs[:] = [d for d in dirs if d not in (".git", "out", "target", "build")]
        out += [os.path.relpath(os.path.join(folder, n), root) for n in names]
    return out


def spans(path):
    """(line, text before on the line, text) of each span in backticks that is not in a fenced or indented block."""
    fenced, out = False, []
    with open(path, encoding="utf-8") as f:
        lines = f.read().split("\n")
    text, at = "", []
    for n, l in enumerate(lines, 1):
        if l.startswith("```"):
            fenced = not fenced
            l = ""
        if fenced or (l.startswith("    ") and (n == 1 or not lines[n - 2].strip() or lines[n - 2].startswith("    "))):
            l = ""
        at.append((len(text), n))
        text += l + "\n"
    for m in re.finditer(r"(`+)([^`]+?)\1", text):
        if "\n\n" in m[2]:
            continue
        n = max(k for p, k in at if p <= m.start())
        out.append((n, text[:m.start()], re.sub(r"\s+", " ", m[2]).strip()))
    return out


def main(argv):
    flags = {a for a in argv if a.startswith("--")}
    given = [a for a in argv if not a.startswith("--")]
    if not given or flags - {"--strict", "--crates"}:
        print(__doc__)
        return 2
    root, files = given[0], given[1:] or FILES
    all_files = tracked(root)
    code, other, per, paths = set(KEYWORDS), set(), {}, set()
    crates = sorted(c for c in os.listdir(os.path.join(root, "crates")) if os.path.isdir(os.path.join(root, "crates", c)))
    for f in all_files:
        parts = f.split("/")
        for k in range(len(parts)):
            paths.add("/".join(parts[k:]))
            paths.add(parts[k])
            paths.add(parts[k].rsplit(".", 1)[0])
            paths.add("/".join(parts[:k + 1]))
        if f.endswith((".png", ".otf", ".gz", ".xz", ".bin", ".pdf")):
            continue
        p = os.path.join(root, f)
        if not os.path.isfile(p):
            continue
        with open(p, encoding="utf-8", errors="replace") as h:
            t = h.read() if os.path.getsize(p) < 4_000_000 else ""
        if parts[0] == "crates" and len(parts) > 3 and parts[2] in ("src", "specs", "proofs"):
            w = words(t)
            code |= w
            per.setdefault(parts[1], set()).update(w, words(f))
        elif parts[0] == "crates" and len(parts) > 2:
            per.setdefault(parts[1], set()).update(words(f), words(t) if parts[2] == "must-fail" else ())
            if parts[2] == "must-fail":
                code.add(parts[-1].removesuffix(".edit"))
        elif not f.endswith(".md") or parts[0] != "docs":
            if not f.endswith(".md"):
                other |= words(t)
    known = code | set(crates) | paths
    total, seen, foreign = 0, {}, []
    for f in files:
        if not os.path.isfile(os.path.join(root, f)):
            print(f"no file {f}")
            continue
        for n, before, span in spans(os.path.join(root, f)):
            total += 1
            first = span.split(" ")[0]
            if first in COMMANDS or first.startswith(("./", "/", "--", "$", "-")) or (" " in span and shutil.which(first) and first not in code):
                continue
            if re.fullmatch(r"[0-9a-fA-FxX ]+", span) or "://" in span or span in paths or span.rstrip("/") in paths or os.path.exists(os.path.join(root, span)):
                continue
            if re.fullmatch(r"[\w.-]+(?:/[\w.-]+)+|[\w-]+\.(?:py|md|rt|antt|rs|edit|txt|toml|c|h)", span) and not re.match(r"(?:build|out|target|logs)/|/", span):
                if not any(p.endswith("/" + span) for p in all_files):
                    seen.setdefault((f, span), []).append((n, span))
                continue
            for m in NAME.finditer(span):
                w = m[0].strip("-")
                # numbers with a letter in them, single letters, hex
                if len(w) < 2 or w in known or w.rstrip("'") in known or re.fullmatch(r"[0-9a-f]{2,}", w) or (m.start() and span[m.start() - 1].isdigit()):
                    continue
                if all(x in known or len(x) < 2 for x in re.split(r"-", w)) and "-" in w and w not in code and " " in span:
                    continue
                if w in other and "--strict" not in flags:
                    continue
                if w.endswith((".rs", ".py")):
                    continue
                seen.setdefault((f, w), []).append((n, span))
            if "--crates" in flags and re.fullmatch(r"[\w'.:-]+", span):
                b = re.search(r"(?:^|[\s(|,;])([a-z][a-z0-9_]*) (?:`[^`\n]+`(?:, | and | or ))*$", before)
                if b and b[1] in per:
                    parts = [x for x in re.split(r"::|\.", span) if x]
                    miss = [x for x in parts if x not in per[b[1]] and x not in KEYWORDS]
                    if miss and all(x in known for x in miss):
                        has = sorted(c for c, w in per.items() if all(x in w for x in miss))
                        foreign.append((f, n, b[1], span, has))
    for (f, w), where in sorted(seen.items(), key=lambda x: (files.index(x[0][0]) if x[0][0] in files else 9, x[1][0][0])):
        print(f"{f}:{','.join(sorted({str(n) for n, _ in where}, key=int))}: {w}" + (f"   in `{where[0][1][:80]}`" if where[0][1] != w else ""))
    print(f"{total} spans in backticks, {len(seen)} candidates")
    if "--crates" in flags:
        for f, n, c, s, has in foreign:
            print(f"{f}:{n}: {c} `{s}`: {c} has it not; {', '.join(has[:5]) + (' ..' if len(has) > 5 else '') if has else 'elsewhere in parts'}")
        print(f"{len(foreign)} names behind a crate that has them not")
    return 0


if __name__ == "__main__":
    raise SystemExit(main(sys.argv[1:]))
