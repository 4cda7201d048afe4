"""Reads crates/*/src/*.rt: functions with their clauses, public types with their ghost fields, and Models."""
import collections
import os
import re
import sys

sys.path.insert(0, "/opt/rattle/port")
import contracts as K  # noqa: E402

Fn = collections.namedtuple("Fn", "crate file place name pub sign requires ensures params lines test loops")
Ty = collections.namedtuple("Ty", "crate file name kind pub text ghosts")


def squeeze(s):
    return re.sub(r"\s+", " ", s).strip()


def split(s):
    """The parts between commas outside of brackets."""
    out, deep, cur, prev = [], 0, "", ""
    for ch in s:
        if ch in "([{" or ch == "<":
            deep += 1
        elif ch in ")]}" or (ch == ">" and prev not in "-="):
            deep -= 1
        if ch == "," and deep == 0:
            out.append(cur.strip())
            cur = ""
        else:
            cur += ch
        prev = ch
    if cur.strip():
        out.append(cur.strip())
    return out


def taken(sign, whole=False):
    """(parameters, answer) of a signature; with whole, one that has parameters of types or lifetimes is one parameter (as the page has some)."""
    s = sign.strip()
    if s.startswith("<"):
        if whole:
            return [s], "()"
        deep = 0
        for k, ch in enumerate(s):
            if ch == "<":
                deep += 1
            elif ch == ">" and s[k - 1] not in "-=":
                deep -= 1
                if not deep:
                    break
        s = s[k + 1:].strip()
    if not s.startswith("("):
        return [], "()"
    e = K.closing(s, 0, "(", ")")
    r = re.sub(r"\s+where\b.*$", "", s[e:].strip())
    return split(s[1:e - 1]), (r[2:].strip() if r.startswith("->") else "()")


def functions(crate, file, raw):
    t = K.blank(raw)
    stack = []
    for m in re.finditer(r"\b(impl|trait|mod|fn)\b", t):
        while stack and m.start() >= stack[-1][0]:
            stack.pop()
        if m[1] == "fn":
            w = K.WORD.search(t, m.end())
            if not w or t[m.end():w.start()].strip():
                continue
            clauses, end = K.head(t, raw, w.end())
            first = K.CLAUSE.search(t, w.end(), end)
            sign = squeeze(K.blank(raw)[w.end():first.start() if first else end]) if "//" in raw[w.end():end] else squeeze(raw[w.end():first.start() if first else end])
            before = t[:m.start()]
            before = before[max(before.rfind(";"), before.rfind("}"), before.rfind("{")) + 1:]
            test = any(s[2] for s in stack) or bool(re.search(r"#\[[^\]]*\btest\b", before))
            lines = loops = 0
            if t[end:end + 1] == "{":
                loops = len(re.findall(r"(?:^|[\s;{}(])(?:for\s+[^<;{}]+?\s+in\b|while\b|loop\s*\{)", t[end:K.closing(t, end)]))
                body = raw[end:K.closing(t, end)]
                lines = max(0, body.count("\n") - 1) if "\n" in body else (1 if body.strip("{} \n") else 0)
            show = lambda word: [(c[1] and word + " " + c[1] + " " or word + " ") + "{ " + c[2] + " }" for c in clauses if c[0] == word]  # noqa: E731
            yield Fn(crate, file, ".".join(s[1] for s in stack if s[1]), w[0], bool(re.search(r"\bpub\b", before)), sign, show("requires"), show("ensures"), taken(sign)[0], lines, test, loops)
        else:
            j = m.end()
            while j < len(t) and t[j] not in "{;":
                j = K.closing(t, j, "(", ")") if t[j] == "(" else j + 1
            if j < len(t) and t[j] == "{":
                name = re.sub(r"\s+where\b.*$", "", re.sub(r"^<[^>]*>\s*", "", squeeze(t[m.end():j])))
                cfg = bool(re.search(r"#\[\s*cfg\s*\(\s*test\s*\)\s*\]\s*(?:pub\s*(?:\([^)]*\))?\s*)?$", t[max(0, m.start() - 80):m.start()]))
                stack.append((K.closing(t, j), name if m[1] == "impl" else re.split(r"[<:]", name)[0].strip(), cfg))


def types(crate, file, raw):
    t = K.blank(raw)
    for m in re.finditer(r"\b(struct|enum|trait|union|type|static|const)\s+(?:mut\s+)?([A-Za-z_]\w*)", t):
        before = t[:m.start()]
        before = before[max(before.rfind(";"), before.rfind("}"), before.rfind("{")) + 1:]
        if m[1] in ("type", "static", "const"):
            if m[1] == "const" and re.match(r"\s*fn\b", t[m.end(1):]):
                continue
            e = t.find(";", m.end())
            colon = re.match(r"\s*:([^=;]*)", t[m.end():])
            # the type of a static or constant and, where it is short, its value
            value = squeeze(raw[m.end():e])
            yield Ty(crate, file, m[2], m[1], bool(re.search(r"\bpub\b", before)), value if len(value) < 300 else ": " + squeeze(colon[1] if colon else ""), {})
            continue
        j = m.end()
        while j < len(t) and t[j] not in "{;(":
            j += 1
        if j < len(t) and t[j] == "(":
            e = K.closing(t, j, "(", ")")
        elif j < len(t) and t[j] == "{":
            e = K.closing(t, j)
        else:
            e = j
        text = squeeze("\n".join(re.sub(r"//.*", "", l) for l in raw[m.start():e].split("\n")))
        ghosts = {}
        for g in re.finditer(r"\bghost\s+(?!use\b)(\w[\w']*)\s*[:=]\s*\{", t[m.start():e]):
            at = m.start() + g.end() - 1
            ghosts[g[1]] = squeeze(raw[at + 1:K.closing(t, at) - 1])
        # what stands behind 'by' is a proof
        text = re.sub(r"\s*\bby \{[^{}]*\}", "", text)
        yield Ty(crate, file, m[2], m[1], bool(re.search(r"\bpub\b", before)), text, ghosts)
    for m in re.finditer(r"\bimpl\b(?:<[^>]*>)?\s+Model\s+for\s+([A-Za-z_]\w*)[^{;]*\{", t):
        j = m.end() - 1
        e = K.closing(t, j)
        ghosts = {}
        for g in re.finditer(r"\bghost\s+(?!use\b)(\w[\w']*)\s*[:=]\s*\{", t[j:e]):
            at = j + g.end() - 1
            ghosts[g[1]] = squeeze(raw[at + 1:K.closing(t, at) - 1])
        yield Ty(crate, file, m[1], "Model", True, "", ghosts)


def crates(root):
    top = os.path.join(root, "crates")
    return sorted(c for c in os.listdir(top) if os.path.isdir(os.path.join(top, c)))


def sources(root, crate):
    base = os.path.join(root, "crates", crate, "src")
    for folder, dirs, names in os.walk(base):
        dirs.sort()
        for f in sorted(names):
            if f.endswith(".rt"):
                p = os.path.join(folder, f)
                with open(p, encoding="utf-8") as h:
                    yield os.path.relpath(p, base), h.read()


def read(root):
    """(functions, types) of a tree, in order."""
    fns, tys = [], []
    for c in crates(root):
        for f, raw in sources(root, c):
            fns += functions(c, f, raw)
            tys += types(c, f, raw)
    return [x for x in fns if not x.test], tys
