#!/usr/bin/env python3
"""Keeps the lists of docs/DESIGN-PASS.md current.

usage: page.py OLD PREV NEW [--write] [--page FILE] [--diff] [--audit] [--mend] [--by-words] [--local] [--all-private]

OLD   a tree of the commit that the page begins with
PREV  a tree that the page describes now
NEW   a tree with more changes; its docs/DESIGN-PASS.md is the page, unless --page names another

--write  writes the page; without it only says what would change      --diff   prints the change of the page
--audit  also lists where the page, as it is, says another thing than PREV (nothing of that is changed)
--mend   also sets right what the audit finds of today's entries: a 'now' text that is not PREV's, an entry of what is gone, missing rows and clauses (no missing definitions)
--by-words  adds no entry of a definition that differs from OLD, as it seems, by the words of the page's table and by bound names alone (it lists them)
--local  also adds entries for statements inside a 'where' of another's body (those that are on the page are kept up in any case)
--all-private  also adds rows of private functions to Signatures (those that are there are kept up in any case)

It changes only entries of the three lists, and of those only what NEW says otherwise than PREV.
"""

import collections
import difflib
import os
import re
import sys

sys.path.insert(0, os.path.dirname(os.path.realpath(__file__)))
import antt  # noqa: E402
import rtsrc  # noqa: E402

SIGS, CLAUSES, DEFS = "## Signatures, old and new", "## Clauses, old and new", "## Definitions and theorems, old and new"
WORDS, GONE = "## Words of definitions, old and new", "## Functions that are gone"
ROW = re.compile(r"\| (\S+) (\S+) `([^`]+)` \| `(.*)` \| `(.*)` \|$")
KEY = re.compile(r"- (\S+) (\S+) `([^`]+)`$")


# ---- trees

class Tree:
    def __init__(self, root):
        self.root = root
        self.fns, self.types = rtsrc.read(root)
        self.defs = collections.OrderedDict()  # (crate, name): [(file, item)]
        for crate, items in antt.read(root).items():
            for file, it in items:
                self.defs.setdefault((crate, it["name"]), []).append((file, it))
        self.crates = set(rtsrc.crates(root))


def pair(olds, news):
    """[(old, new or None)], [new alone]: the same place; else the same type; else the name alone in its crate; else the same name with the same text in another crate."""
    left, pairs, rest = list(news), [], list(olds)
    moved = lambda a, b: a.name == b.name and (a.sign, a.requires, a.ensures) == (b.sign, b.requires, b.ensures)  # noqa: E731
    tests = [
        lambda a, b: (a.crate, a.file, a.place, a.name) == (b.crate, b.file, b.place, b.name),
        lambda a, b: (a.crate, a.file, a.name) == (b.crate, b.file, b.name),
        lambda a, b: (a.crate, a.place, a.name) == (b.crate, b.place, b.name),
        lambda a, b: (a.crate, a.name) == (b.crate, b.name),
        moved,
        lambda a, b: a.name == b.name and bool(a.ensures) and (a.requires, a.ensures) == (b.requires, b.ensures),
    ]
    for test in tests:
        by = collections.defaultdict(list)
        for b in left:
            by[b.name].append(b)
        again = []
        for a in rest:
            hit = next((b for b in by[a.name] if test(a, b)), None)
            if hit is None:
                again.append(a)
            else:
                by[a.name].remove(hit)
                left.remove(hit)
                pairs.append((a, hit))
        rest = again
    # the same name alone in another crate, with much the same text
    for a in list(rest):
        to = [b for b in left if b.name == a.name]
        if len(to) == 1 and sum(x.name == a.name for x in rest) == 1 and alike(" ".join([a.sign, *a.requires, *a.ensures]), " ".join([to[0].sign, *to[0].requires, *to[0].ensures])):
            rest.remove(a)
            left.remove(to[0])
            pairs.append((a, to[0]))
    return pairs + [(a, None) for a in rest], left


def alike(a, b):
    return difflib.SequenceMatcher(None, TOKEN.findall(a), TOKEN.findall(b), autojunk=False).ratio() >= 0.7


def named(f):
    return f"{f.crate} {f.file} `{f.name}`"


def full(f):
    return f"{f.crate} {f.file} `{(f.place + '::') if f.place else ''}{f.name}`"


# ---- signatures

def columns(old, new, whole=False):
    """The two columns of a function, as the page has them: what stays is left out."""
    (p, r), (q, t) = rtsrc.taken(old, whole), rtsrc.taken(new, whole)
    a, b = list(p), list(q)
    for x in list(a):
        if x in b:
            a.remove(x)
            b.remove(x)

    def show(ps, ret, sign):
        one = "(" + ", ".join(ps) + ")" if p != q else ""
        two = "" if r == t else "nothing" if ret == "()" and not (whole and sign.startswith("<")) else ret
        return one + (" -> " if one and two else "") + two

    return show(a, r, old), show(b, t, new)


def clause_lines(old, new):
    out = []
    for word, a, b in (("requires", old.requires, new.requires), ("ensures", old.ensures, new.ensures)):
        if a != b:
            out.append(f"  - `{' '.join(a) or 'no ' + word}`")
            out.append(f"  - now `{' '.join(b) or 'no ' + word}`")
    return out


# ---- definitions

def body_of(it, how):
    """The equations behind a statement: sp (joined), usp (with 'unfolding' lines), semi (behind a ';')."""
    eqs = [t for k, t in it["body"] if k != "unfolding"]
    every = [t for k, t in it["body"]]
    if how == "semi":
        return " ; " + " ".join(every) if every else ""
    some = every if how == "usp" else eqs
    return " " + " ".join(some) if some else ""


DATA = ("ℕ", "ℤ", "Bool", "List", "Option", "Type", "Float")


def is_plain(it):
    """Whether a statement that is neither `abbrev` nor `unfoldable` is a definition, by what it answers: a number, a list, a type ..; of a law the body is a proof."""
    if it["kind"] != "def" or " : " not in it["head"]:
        return False
    t, deep, last = it["head"].split(" : ", 1)[1], 0, 0
    for k, ch in enumerate(t):
        deep += (ch in "({[") - (ch in ")}]")
        if ch == "→" and not deep:
            last = k + 1
    answer = t[last:].strip()
    return answer.split(" ")[0] in DATA and not re.search(r"[≡≤<⊎]|⊥", answer)


def statement(it, how="sp", own=1):
    """A statement without its modules. Bodies stand with it where it is a definition (own 1), where it is an `abbrev` or `unfoldable` (0), or always (2)."""
    body = it["kind"] in ("abbrev", "unfoldable") or (it["kind"] == "def" and (own == 2 or (own == 1 and is_plain(it))))
    return it["head"] + (body_of(it, how) if body else "")


def whole(it, how="sp", own=1):
    m = " ".join(it["modules"])
    return (m + " " if m else "") + statement(it, how, own)


def texts(occs, local=True):
    """What is compared: the statements, with the modules around them."""
    return [whole(it) for _, it in occs if local or not it["local"]]


def kept_modules(a, b):
    """Of two lists of modules those that are not in both (each as often as it stands)."""
    x, y = list(a), list(b)
    for m in list(x):
        if m in y:
            x.remove(m)
            y.remove(m)
    return x, y


def dotted(olds, news, how, own, chunks):
    """Two lists of statements without the modules that both have ('..' in front where some are left out)."""
    out = ([], [])
    for k in range(max(len(olds), len(news))):
        a, b = (olds[k] if k < len(olds) else None), (news[k] if k < len(news) else None)
        if a is None or b is None:
            for side, it in ((0, a), (1, b)):
                if it is not None:
                    out[side].append(whole(it, how, own))
            continue
        ka, kb = kept_modules(a["modules"], b["modules"])
        for side, it, keep in ((0, a, ka), (1, b, kb)):
            left = len(keep) < len(it["modules"])
            out[side].append((".. " if left else "") + "".join(m + " " for m in keep) + statement(it, how, own))
        if chunks:
            # what both have in front, up to a 'pub', is left out
            x, y = whole(a, how, own), whole(b, how, own)
            cut = 0
            for m in re.finditer(r" (?=pub )", x):
                if x[:m.end()] == y[:m.end()]:
                    cut = m.end()
            if cut:
                out[0][-1], out[1][-1] = ".. " + x[cut:], ".. " + y[cut:]
    return out


def chosen(olds, news, sel, how):
    """Which occurrences of a name are shown: all, those that are not the same in both, or those that differ by more than words."""
    if sel == "all":
        return olds, news
    a, b = [whole(x, how) for x in olds], [whole(x, how) for x in news]
    x, y = [o for o, t in zip(olds, a) if t not in b], [o for o, t in zip(news, b) if t not in a]
    if sel == "words" and len(x) == len(y):
        keep = [k for k in range(len(x)) if by_more(whole(x[k]), whole(y[k]))]
        x, y = [x[k] for k in keep], [y[k] for k in keep]
    return x, y


def render(olds, news, form):
    """(old texts, now texts) of an entry in a form (modules, bodies, own, local, sel, join)."""
    mods, how, own, local, sel, join = form
    a = [it for _, it in olds if local or not it["local"]]
    b = [it for _, it in news if local or not it["local"]]
    a, b = chosen(a, b, sel, how)
    if mods == "full":
        x, y = [whole(it, how, own) for it in a], [whole(it, how, own) for it in b]
    elif mods == "none":
        x, y = [statement(it, how, own) for it in a], [statement(it, how, own) for it in b]
    else:
        x, y = dotted(a, b, how, own, mods == "chunks")
    if join == "slash":
        return ([" / ".join(x)] if x else [], [" / ".join(y)] if y else [])
    return x, y


FORMS = [(mods, how, own, local, sel, join) for join in ("slash", "lines") for own in (1, 0, 2) for sel in ("all", "differ", "words") for local in (True, False) for mods in ("full", "dots", "none", "chunks") for how in ("sp", "semi", "usp")]


def form_of(olds, prevs, entry):
    """The form in which the page has an entry, or None where it has none that is known."""
    want = (entry["old"], entry["now"])
    for form in FORMS:
        if render(olds, prevs, form) == want:
            return form
    return None


def fragments(text, occs):
    """The occurrences that a text of the page shows, by number, or None where some of it is none of them."""
    known = {}
    for k, (_, it) in enumerate(occs):
        for how in ("sp", "semi", "usp"):
            for own in (1, 0, 2):
                known.setdefault(whole(it, how, own), k)
                known.setdefault(statement(it, how, own), k)
                for n in range(1, len(it["modules"])):
                    known.setdefault("".join(m + " " for m in it["modules"][n:]) + statement(it, how, own), k)
        known.setdefault(it["head"], k)
    ps = text.split(" / ")

    def go(k):
        if k == len(ps):
            return []
        for e in range(len(ps), k, -1):
            x = " / ".join(ps[k:e])
            x = x[3:] if x.startswith(".. ") else x
            hit = known.get(x)
            if hit is None:
                hit = next((n for t, n in known.items() if x and t.endswith(" " + x)), None)
            if hit is not None:
                r = go(e)
                if r is not None:
                    return [hit] + r
        return None

    return go(0)


# ---- whether two texts differ by more than words

TOKEN = re.compile(r"[^\s(){}\[\],;.]+|[(){}\[\],;.]")
PUNCT = set("(){}[],;.:")
OLD_WORDS, NEW_WORDS = set(), set()


def learn_words(page, old, new):
    """The words of the page's table, and the variants, constructors and types of OLD that NEW has no more."""
    if WORDS in page:
        for l in page[page.index(WORDS):]:
            if l.startswith("## ") and l != WORDS:
                break
            if l.startswith("| ") and " | " in l[2:] and not l.startswith("| old"):
                a, b = l.strip("| ").split(" | ", 1)
                for side, into in ((a, OLD_WORDS), (b, NEW_WORDS)):
                    for t in re.findall(r"`([^`]+)`", side):
                        into.update(TOKEN.findall(t))
    vocabulary = lambda t: {w for y in t.types for w in re.findall(r"\b[A-Z]\w*", y.text)} | {y.name for y in t.types}  # noqa: E731
    OLD_WORDS.update(vocabulary(old) - vocabulary(new))
    OLD_WORDS.update(constructors(old) - constructors(new))
    OLD_WORDS.update({"ℕ"} | {str(n) for n in range(16)})
    NEW_WORDS.update({"ℕ", "Result", "Refusal", "Option", "Unit", "tt", "Ok", "Err", "Some", "None", "number_of", "way_number", "Way"})
    for w in ("≡", "≤", "<", "→", "⊥"):
        OLD_WORDS.discard(w)
        NEW_WORDS.discard(w)


def constructors(t):
    out = set()
    for occs in t.defs.values():
        for _, it in occs:
            if it["kind"] == "data":
                out.update(re.findall(r"(?:where|;|\s)\s*(?:pub )?([^\s:(){}]+) :", it["head"].split(" where", 1)[-1]))
                out.add(it["name"])
    return out


def bound(s):
    """What a text binds."""
    out = set()
    for m in re.finditer(r"[({]([^(){}:]+) : ", s):
        out |= set(m[1].split())
    for m in re.finditer(r"λ ([^.(]+)\.", s):
        out |= set(m[1].split())
    return out


def by_more(a, b):
    """The pieces in which two texts differ by more than the table's words and the names of what they bind."""
    x, y, ba, bb, out = TOKEN.findall(a), TOKEN.findall(b), bound(a), bound(b), []
    for op, i1, i2, j1, j2 in difflib.SequenceMatcher(None, x, y, autojunk=False).get_opcodes():
        if op != "equal":
            p = [t for t in x[i1:i2] if not (t in OLD_WORDS or t in NEW_WORDS or t in PUNCT or t in ba or alias(t) in OLD_WORDS)]
            q = [t for t in y[j1:j2] if not (t in NEW_WORDS or t in OLD_WORDS or t in PUNCT or t in bb)]
            if p or q:
                out.append((" ".join(x[i1:i2]), " ".join(y[j1:j2])))
    return out


ALIAS = {}


def learn_aliases(root):
    """What files of OLD call a word that they import: {X as Y}."""
    for crate in rtsrc.crates(root):
        for first in ("specs", "proofs"):
            for folder, _, names in os.walk(os.path.join(root, "crates", crate, first)):
                for f in names:
                    if f.endswith(".antt"):
                        with open(os.path.join(folder, f), encoding="utf-8") as h:
                            for m in re.finditer(r"([^\s{},]+) as ([^\s{},]+)", h.read()):
                                ALIAS[m[2]] = m[1]


def alias(t):
    return ALIAS.get(t, t)


# ---- the page

class Page:
    def __init__(self, path):
        with open(path, encoding="utf-8") as f:
            self.lines = f.read().split("\n")
        self.path = path
        self.read()

    def range(self, head):
        """The lines below a heading, up to the next '## '."""
        if head not in self.lines:
            return 0, 0
        i = self.lines.index(head)
        j = i + 1
        while j < len(self.lines) and not self.lines[j].startswith("## "):
            j += 1
        return i, j

    def read(self):
        self.sigs, self.clauses, self.defs = {}, {}, {}
        i, j = self.range(SIGS)
        for k in range(i, j):
            m = ROW.match(self.lines[k])
            if m:
                self.sigs[m[1], m[3], m[2]] = {"old": m[4], "now": m[5], "at": k, "end": k + 1}
        i, j = self.range(CLAUSES)
        k = i
        while k < j:
            m = KEY.match(self.lines[k])
            if m:
                e = k + 1
                while e < j and self.lines[e].startswith("  - "):
                    e += 1
                self.clauses[m[1], m[3], m[2]] = {"lines": self.lines[k + 1:e], "at": k, "end": e}
                k = e
            else:
                k += 1
        i, j = self.range(DEFS)
        crate, k = None, i
        while k < j:
            l = self.lines[k]
            if l.startswith("### "):
                crate = l[4:].strip()
            m = re.match(r"- `([^`]+)`$", l)
            if m and crate:
                e = k + 1
                while e < j and self.lines[e].startswith("  - "):
                    e += 1
                own = self.lines[k + 1:e]
                self.defs[crate, m[1]] = {"old": [x[5:-1] for x in own if x.startswith("  - `")], "now": [x[9:-1] for x in own if x.startswith("  - now `")], "lines": own, "at": k, "end": e}
                k = e
                continue
            k += 1

    # edits: (from, to, lines), applied from the end
    def apply(self, edits):
        for at, end, lines in sorted(edits, key=lambda e: (e[0], e[1]), reverse=True):
            self.lines[at:end] = lines
        self.read()

    def text(self):
        return "\n".join(self.lines)

    def place(self, entries, key, head, behind):
        """The line at which a new entry belongs: before the first that sorts behind it, else behind the last."""
        after = [e["at"] for k, e in entries.items() if k > key]
        if after:
            return min(after)
        last = [e["end"] for k, e in entries.items()]
        return max(last) if last else self.range(head)[1] - behind


def named_where(page, crate, name):
    """Where the page names something of a crate: the lines among what is gone (the first cell of the tables there, or the sentences between them), and other lines but those of the lists."""
    i, j = page.range(GONE)
    quoted = re.compile(r"`(?:[\w':]+(?:::|\.))?" + re.escape(name) + r"`")
    own = re.compile(r"(?<![\w_`])" + re.escape(crate) + r"(?![\w_])")
    gone, other = [], []
    lists = [page.range(h) for h in (SIGS, CLAUSES, DEFS)]
    for k, l in enumerate(page.lines):
        if any(a <= k < b for a, b in lists) or not quoted.search(l):
            continue
        cell = l.split(" | ")[0] if l.startswith("| ") else l
        if i <= k < j and quoted.search(cell) and own.search(cell):
            gone.append(k + 1)
        elif own.search(l):
            other.append(k + 1)
    return gone, other


# ---- the work

class Report:
    def __init__(self):
        self.parts = collections.OrderedDict()

    def say(self, part, text):
        self.parts.setdefault(part, []).append(text)

    def show(self):
        for part, rows in self.parts.items():
            print(f"\n== {part}: {len(rows)}")
            for r in rows:
                print("  " + r.replace("\n", "\n      "))


def do_functions(page, old, prev, new, say, options):
    edits = []
    pairs, fresh = pair(prev.fns, new.fns)
    old_of_prev = by_page(page, pair(old.fns, prev.fns))
    old_of_new = {id(b): a for a, b in pair(old.fns, new.fns)[0] if b is not None}
    for f in fresh:
        if f.pub:
            say("new public functions", f"{full(f)}: {f.sign}")
    for f in fresh:
        if not f.pub:
            say("new private functions", full(f))
    for p, n in pairs + [(None, n) for n in fresh if id(n) in old_of_new]:
        o = old_of_prev.get(id(p)) or old_of_new.get(id(n))
        if n is None:
            gone_function(page, p, o, fresh, edits, say)
            continue
        if p is None:
            gone = named_where(page, o.crate, o.name)[0]
            say("functions of OLD that PREV has not and NEW has (by their name; each may be another one)", f"{full(o)} -> {full(n)}" + (f" (the tables of what is gone name it, line {', '.join(map(str, gone))})" if gone else ""))
        else:
            if (p.crate, p.file) != (n.crate, n.file):
                say("functions moved", f"{full(p)} -> {full(n)}" + ("" if n.pub or p.pub else " (private)") + ("" if (p.sign, p.requires, p.ensures) == (n.sign, n.requires, n.ensures) or p.crate == n.crate else "; its text changed: read it"))
            if p.pub != n.pub:
                say("public no more, or now", f"{full(n)}: {'now public' if n.pub else 'no longer public'}")
        row_of(page, o, p, n, edits, say, options)
        clauses_of(page, o, p, n, edits, say, options)
        if p is not None:
            asks(p, n, say)
    page.apply(in_order(edits))


def by_page(page, paired):
    """{function of PREV: that of OLD}; where the page has an entry of one that is in no pair, it is the one of OLD of that name that is in none."""
    pairs, left = paired
    of = {id(b): a for a, b in pairs if b is not None}
    alone = [a for a, b in pairs if b is None]
    for f in left:
        key = (f.crate, f.name, f.file)
        to = [a for a in alone if a.name == f.name]
        if len(to) == 1 and (key in page.sigs or key in page.clauses):
            of[id(f)] = to[0]
    return of


def gone_function(page, p, o, fresh, edits, say):
    gone, other = named_where(page, p.crate, p.name)
    what = "public" if p.pub else "private"
    like = [full(f) for f in fresh if f.ensures and (f.requires, f.ensures) == (p.requires, p.ensures)]
    hint = f"; the same clauses: {', '.join(like)}" if like else ""
    if o is None:
        say(f"functions gone that came after OLD ({what})", full(p) + hint)
    else:
        note = "" if p.crate == o.crate else f", at OLD in {o.crate}"
        say(f"functions gone that stood in OLD ({what})", f"{full(p)}{note}: {stands(gone, other)}{hint}")
    for entries, kind in ((page.sigs, "signature"), (page.clauses, "clauses")):
        e = entries.get((p.crate, p.name, p.file))
        if e:
            edits.append((e["at"], e["end"], []))
            say("entries taken out (the function is gone)", f"{kind}: {named(p)}")


def stands(gone, other):
    if gone:
        return f"named in the tables of what is gone (line {', '.join(map(str, gone[:5]))})"
    return f"NOT AMONG WHAT IS GONE (but named at line {', '.join(map(str, other[:5]))})" if other else "NOT NAMED"


def row_of(page, o, p, n, edits, say, options):
    """The row of a function in Signatures."""
    before, key = ((p or n).crate, (p or n).name, (p or n).file), (n.crate, n.name, n.file)
    e = page.sigs.get(before)
    differ, moved = p is None or p.sign != n.sign or (options["mend"] and not e and o is not None), before != key
    if not differ and not moved:
        return
    if o is None:
        if differ and n.pub:
            say("signatures changed of functions that came after OLD (no row)", f"{full(n)}\n- {p.sign}\n+ {n.sign}")
        return
    odd = False
    if e and p is not None and columns(o.sign, p.sign) != (e["old"], e["now"]):
        odd = columns(o.sign, p.sign, True) == (e["old"], e["now"])
        if not odd:
            say("signatures: the row said another thing than PREV", f"{named(p)}: {e['old']} | {e['now']}")
    cols = columns(o.sign, n.sign, odd)
    row = f"| {n.crate} {n.file} `{n.name}` | `{cols[0]}` | `{cols[1]}` |"
    if cols == ("", ""):
        if e:
            edits.append((e["at"], e["end"], []))
            say("signatures: rows taken out (as at OLD again)", named(n))
    elif e and moved:
        at = page.place(page.sigs, key, SIGS, 1)
        edits += [(e["at"], e["end"], []), (at, at, [row])]
        say("signatures: rows moved", f"{named(p)} -> {named(n)}")
    elif e:
        if page.lines[e["at"]] != row:
            edits.append((e["at"], e["end"], [row]))
            say("signatures: rows changed", f"{named(n)}\n- {e['old']} | {e['now']}\n+ {cols[0]} | {cols[1]}")
    elif differ:
        if named_where(page, o.crate, o.name)[0]:
            say("signatures: no row, since the tables of what is gone name it", f"{full(n)}: {cols[0]} | {cols[1]}")
        elif n.pub or options["all-private"]:
            at = page.place(page.sigs, key, SIGS, 1)
            edits.append((at, at, [row]))
            say("signatures: rows new", f"{named(n)}: {cols[0]} | {cols[1]}")
        else:
            say("signatures: private, no row", f"{named(n)}: {cols[0]} | {cols[1]}")


def clauses_of(page, o, p, n, edits, say, options):
    """The entry of a function in Clauses."""
    before, key = ((p or n).crate, (p or n).name, (p or n).file), (n.crate, n.name, n.file)
    e = page.clauses.get(before)
    differ, moved = p is None or (p.requires, p.ensures) != (n.requires, n.ensures) or (options["mend"] and not e and o is not None), before != key
    if not differ and not moved:
        return
    if o is None:
        if differ:
            say("clauses changed of functions that came after OLD (no entry)", f"{full(n)}{'' if n.pub else ' (private)'}\n" + "\n".join(clause_lines(p, n)))
        return
    if e and p is not None and clause_lines(o, p) != e["lines"]:
        say("clauses: the entry said another thing than PREV", named(p))
    lines = clause_lines(o, n)
    block = [f"- {named(n)}"] + lines
    if not lines:
        if e:
            edits.append((e["at"], e["end"], []))
            say("clauses: entries taken out (as at OLD again)", named(n))
    elif e and moved:
        at = page.place(page.clauses, key, CLAUSES, 1)
        edits += [(e["at"], e["end"], []), (at, at, block)]
        say("clauses: entries moved", f"{named(p)} -> {named(n)}" + ("" if e["lines"] == lines else " (and changed)"))
    elif e:
        if e["lines"] != lines:
            edits.append((e["at"], e["end"], block))
            say("clauses: entries changed", named(n) + "".join("\n" + d.rstrip() for d in difflib.ndiff(e["lines"], lines) if d[0] in "+-"))
    elif differ:
        if named_where(page, o.crate, o.name)[0]:
            say("clauses: no entry, since the tables of what is gone name it", full(n) + "".join("\n" + l for l in lines))
        else:
            at = page.place(page.clauses, key, CLAUSES, 1)
            edits.append((at, at, block))
            say("clauses: entries new", named(n) + "".join("\n" + l for l in lines))


def asks(p, n, say):
    """A requires that has more or other words than it had is worth a look."""
    if p.requires != n.requires and n.requires:
        x, y = re.split(r" × ", " ".join(p.requires)), re.split(r" × ", " ".join(n.requires))
        strip = lambda ps: {s.strip(" (){}").removeprefix("requires {").strip(" (){}") for s in ps}  # noqa: E731
        more = strip(y) - strip(x)
        if more:
            say("look: a requires that says another thing than in PREV", f"{full(n)}: {'; '.join(sorted(more))}")


def in_order(edits):
    """Insertions at one line stand in the order of their text; an insertion goes before what is cut at the same line."""
    groups = collections.OrderedDict()
    for at, end, lines in edits:
        groups.setdefault((at, end), []).append(lines)
    out = []
    for (at, end), many in groups.items():
        if at == end and len(many) > 1:
            many.sort(key=lambda ls: sort_key(ls[0]))
            out.append((at, end, [l for ls in many for l in ls]))
        else:
            out += [(at, end, ls) for ls in many[:1]]
    return out


def sort_key(l):
    m = ROW.match(l)
    if m:
        return m[1], m[3], m[2]
    m = KEY.match(l)
    if m:
        return m[1], m[3], m[2]
    return (l,)


def do_types(page, prev, new, old, say):
    key = lambda y: (y.crate, y.name, y.kind)  # noqa: E731
    a, b = {key(y): y for y in prev.types}, {key(y): y for y in new.types}
    o = {key(y): y for y in old.types}
    fresh = [y for k, y in b.items() if k not in a]
    for k, y in a.items():
        m = b.get(k)
        if m is None:
            m = next((z for z in fresh if z.name == y.name and z.kind == y.kind and (z.text, z.ghosts) == (y.text, y.ghosts)), None)
            if m is not None:
                fresh.remove(m)
                say("types moved", f"{y.kind} {y.crate} {y.file} `{y.name}` -> {m.crate} {m.file}")
                continue
            as_kind = next((z for z in fresh if z.name == y.name and z.crate == y.crate), None)
            if y.pub:
                gone, other = named_where(page, y.crate, y.name)
                stood = "stood in OLD" if k in o else "came after OLD"
                say(f"public types, constants and Models gone ({stood})", f"{y.kind} {y.crate} {y.file} `{y.name}`: {stands(gone, other)}" + (f"; now a {as_kind.kind}" if as_kind else ""))
            continue
        if y.file != m.file:
            say("types moved", f"{y.kind} {y.crate} {y.file} `{y.name}` -> {m.file}")
        if y.ghosts != m.ghosts:
            for g in sorted(set(y.ghosts) | set(m.ghosts)):
                x, z = y.ghosts.get(g), m.ghosts.get(g)
                if x != z:
                    was = (o.get(k).ghosts.get(g) if k in o else None)
                    said = "" if was is None else f"\nat OLD {{ {was} }}"
                    say("type invariants (ghost fields, Models) that changed", f"{m.kind} {m.crate} {m.file} `{m.name}`.{g}\n- {x if x is not None else '(none)'}\n+ {z if z is not None else '(none)'}{said}")
        plain = lambda t: re.sub(r"(?:pub )?ghost \w+: \{.*?\},?(?= |$)", "", t)  # noqa: E731
        if m.pub and plain(y.text) != plain(m.text):
            say("public types whose fields or variants changed", f"{m.kind} {m.crate} {m.file} `{m.name}`\n- {y.text}\n+ {m.text}")
    for y in fresh:
        if y.pub:
            g = "; ".join(f"{k}: {v}" for k, v in y.ghosts.items())
            say("new public types, constants and Models", f"{y.kind} {y.crate} {y.file} `{y.name}`" + (f" {{ {g} }}" if g else ""))


def do_defs(page, old, prev, new, say, options):
    edits, sections = [], collections.defaultdict(list)  # sections: new crate headings
    moved, near = {}, {}
    fresh = [k for k in new.defs if k not in prev.defs]
    lost = [k for k in prev.defs if k not in new.defs]
    for k in lost:
        # the same name in another crate with the same text is a move
        own = sorted(texts(prev.defs[k]))
        to = [q for q in fresh if q[1] == k[1] and sorted(texts(new.defs[q])) == own]
        if not to and not all(it["local"] for _, it in prev.defs[k]):
            to = [q for q in fresh if q[1] == k[1] and alike(" / ".join(texts(prev.defs[k], False)), " / ".join(texts(new.defs[q], False)))]
            to = to if sum(x[1] == k[1] for x in lost) == 1 else []
            if k not in page.defs:
                near[k] = [f"{q[0]} `{q[1]}`" for q in to]
                to = []
        if len(to) == 1 and to[0] not in moved.values():
            moved[k] = to[0]
    for k, q in moved.items():
        say("definitions and laws moved", f"{k[0]} `{k[1]}` -> {q[0]} ({', '.join(sorted({f for f, _ in new.defs[q]}))})" + ("" if sorted(texts(prev.defs[k])) == sorted(texts(new.defs[q])) else "; its text changed: read it" + changes(prev.defs[k], new.defs[q])))
    came = {q: k for k, q in moved.items()}

    def tell(k, part, extra=""):
        occs = prev.defs[k]
        here = f"{k[0]} `{k[1]}` ({', '.join(sorted({f for f, _ in occs}))})"
        gone, other = named_where(page, *k)
        say(part, f"{here}: {stands(gone, other)}{extra}")

    for k in new.defs:
        if k in came or k in prev.defs or all(it["local"] for _, it in new.defs[k]):
            continue
        f, it = new.defs[k][0]
        if k not in old.defs:
            say("new definitions and laws", f"{k[0]} `{k[1]}` ({f}): {it['head'][:200]}")
            continue
        gone = named_where(page, *k)[0]
        say("definitions of OLD that PREV has not and NEW has (by their name; each may be another one)", f"{k[0]} `{k[1]}` ({f})" + (f" (the tables of what is gone name it, line {', '.join(map(str, gone[:5]))}): no entry" if gone else ""))
        if not gone:
            if k in page.defs:
                edits.append((page.defs[k]["at"], page.defs[k]["end"], []))
            new_entry(page, old.defs[k], [], new.defs[k], k, edits, sections, say, options)
    for k in lost:
        if k in moved:
            continue
        e = page.defs.get(k)
        if e:
            edits.append((e["at"], e["end"], []))
            say("definitions: entries taken out (it is gone)", f"{k[0]} `{k[1]}`")
        if all(it["local"] for _, it in prev.defs[k]):
            continue
        heads = {it["head"].replace(k[1], "_") for _, it in prev.defs[k]}
        like = [f"{q[0]} `{q[1]}`" for q in fresh if {it["head"].replace(q[1], "_") for _, it in new.defs[q]} == heads]
        tell(k, "definitions and laws gone that stood in OLD" if k in old.defs else "definitions and laws gone that came after OLD", f"; the same text: {', '.join(like)}" if like else f"; much the same: {', '.join(near[k])}" if near.get(k) else "")

    for k, e in page.defs.items():
        if options["mend"] and k not in prev.defs and k not in new.defs:
            edits.append((e["at"], e["end"], []))
            say("definitions: entries taken out (neither PREV nor NEW has it)", f"{k[0]} `{k[1]}`")
    for k in list(prev.defs):
        q = moved.get(k, k)
        if q not in new.defs:
            continue
        p_occ, n_occ = prev.defs[k], new.defs[q]
        o_key = k if k in old.defs else q if q in old.defs else next((x for x in old.defs if x[1] == k[1] and x not in prev.defs and texts(old.defs[x]) == texts(p_occ)), None)
        e = page.defs.get(k)
        if e and not o_key:
            others = [x for x in old.defs if x[1] == k[1] and x not in prev.defs]
            o_key = others[0] if len(others) == 1 else None
        o_occ = old.defs.get(o_key, []) if o_key else []
        same = texts(p_occ) == texts(n_occ)
        if same and q == k and not (options["mend"] and e and o_occ and any(fragments(t, p_occ) is None for t in e["now"]) and form_of(o_occ, p_occ, e) is None):
            continue
        if not e and texts(p_occ, False) == texts(n_occ, False) and q == k and not options["local"]:
            continue
        here = f"{q[0]} `{q[1]}`"
        if not e and sorted(texts(p_occ)) == sorted(texts(n_occ)) and q == k:
            continue
        if not o_occ:
            if not same:
                say("definitions and laws changed that came after OLD (no entry)", here + changes(p_occ, n_occ))
            if not e:
                continue
        if not e:
            if same:
                continue
            new_entry(page, o_occ, p_occ, n_occ, q, edits, sections, say, options)
            continue
        # an entry that is on the page
        form = form_of(o_occ, p_occ, e)
        if form is None:
            x, y = by_fragments(o_occ, p_occ, n_occ, e)
            note = " (its form is one of its own: read it)"
            if y is None:
                # the old text alone tells the form
                again = next((f for f in FORMS if f[0] in ("full", "none") and e["old"] and render(o_occ, n_occ, f)[0] == e["old"]), None)
                if not o_occ:
                    say("definitions: BY HAND: OLD had it not, the entry says another thing than PREV, and NEW another than PREV", here + f"\npage old {e['old']}\npage now {e['now']}" + changes(p_occ, n_occ))
                    continue
                x, y = render(o_occ, n_occ, again or ("full", "sp", 1, all(it["local"] for _, it in n_occ), "all", "slash"))
                note = " (its now text was not PREV's: read it)" if again else " (its texts were not those of OLD and PREV: both are written anew, read it)"
        else:
            note = ""
            around = [[it["modules"] for _, it in occs] for occs in (o_occ, p_occ, n_occ)]
            if form[0] == "none" and around[2] not in around[:2]:
                form = ("full",) + form[1:]
                note = " (its modules changed: it has them now)"
            x, y = render(o_occ, n_occ, form)
            if x and not y or y and not x:
                x, y = render(o_occ, n_occ, form[:4] + ("all",) + form[5:])
        if (o_occ and sorted(texts(o_occ, False)) == sorted(texts(n_occ, False)) and q == k and texts(o_occ) == texts(n_occ)) or (not x and not y):
            edits.append((e["at"], e["end"], []))
            say("definitions: entries taken out (as at OLD again)", here)
            continue
        lines = [f"- `{q[1]}`"] + [f"  - `{t}`" for t in x] + [f"  - now `{t}`" for t in y]
        if q != k:
            edits.append((e["at"], e["end"], []))
            add(page, edits, sections, q, lines if not same else [f"- `{q[1]}`"] + e["lines"])
            say("definitions: entries moved", f"{k[0]} `{k[1]}` -> {q[0]}" + note)
        elif lines[1:] != e["lines"]:
            if o_occ and x and y and not by_more(" / ".join(x), " / ".join(y)):
                note += " (LOOK: it differs from OLD only by words now)"
            edits.append((e["at"], e["end"], lines))
            say("definitions: entries changed", here + note + "".join("\n" + d for d in difflib.ndiff(e["lines"], lines[1:]) if d[0] in "+-"))
    # headings that lost all their entries, and new ones
    page.apply(in_order_defs(edits))
    for crate in sorted(sections):
        open_section(page, crate, sections[crate])
    close_sections(page, say)


def new_entry(page, o_occ, p_occ, n_occ, q, edits, sections, say, options):
    """An entry for a definition or law that the page has not, where it is not as at OLD."""
    here = f"{q[0]} `{q[1]}`"
    a, b = texts(o_occ, options["local"]), texts(n_occ, options["local"])
    if sorted(a) == sorted(b):
        if sorted(texts(p_occ, options["local"])) != sorted(b):
            say("definitions: as at OLD again, and not on the page", here)
        return
    was = texts(p_occ, options["local"])
    if not [t for t in a if t not in b] or (was and not [t for t in was if t not in b]):
        say("definitions: one more statement of a name, and the others stand (no entry)", here + changes(p_occ, n_occ))
        return
    alone = len(o_occ) == len(n_occ) == 1 and front(o_occ[0][1], n_occ[0][1])
    x, y = render(o_occ, n_occ, ("dots" if alone else "full", "sp", 1, options["local"], "all", "slash"))
    if not y:
        say("definitions: of a name only statements inside a 'where' are left (no entry)", here)
        return
    words = not by_more(" / ".join(t for t in a if t not in b), " / ".join(t for t in b if t not in a))
    if words and options["by-words"]:
        say("definitions: changed, but from OLD only by words (no entry)", here + changes(p_occ, n_occ))
        return
    lines = [f"- `{q[1]}`"] + [f"  - `{t}`" for t in x] + [f"  - now `{t}`" for t in y]
    add(page, edits, sections, q, lines)
    say("definitions: entries new" + (", LOOK: perhaps by words alone" if words else ""), here + "".join("\n" + l for l in lines[1:]))


def front(a, b):
    """Whether all modules of the two are the same, and there are some."""
    return bool(a["modules"]) and a["modules"] == b["modules"]


def changes(p_occ, n_occ):
    a, b = texts(p_occ), texts(n_occ)
    return "".join(f"\n- {t}" for t in a if t not in b) + "".join(f"\n+ {t}" for t in b if t not in a)


def by_fragments(o_occ, p_occ, n_occ, e):
    """For an entry whose form is not known: (old texts, now texts), or (.., None). The old texts stay; the now texts are those of the statements that it showed."""
    shown = [fragments(t, p_occ) for t in e["now"]]
    if not shown or any(s is None for s in shown):
        return e["old"], None
    used = [k for s in shown for k in s]
    if len(n_occ) == len(p_occ):
        picked = [n_occ[k][1] for k in used]
    elif len(used) == len(p_occ):
        picked = [it for _, it in n_occ]
    else:
        return e["old"], None
    # only a 'now' that shows its statements whole can be written anew
    was = [whole(p_occ[k][1]) for k in used]
    if " / ".join(was) != " / ".join(e["now"]):
        bare = [statement(p_occ[k][1]) for k in used]
        if " / ".join(bare) != " / ".join(e["now"]) or any(p_occ[k][1]["modules"] != it["modules"] for k, it in zip(used, picked)):
            return e["old"], None
        return e["old"], [" / ".join(statement(it) for it in picked)]
    return e["old"], [" / ".join(whole(it) for it in picked)]


def add(page, edits, sections, key, lines):
    """A new entry: in its crate's list, or in a new one."""
    own = {k: v for k, v in page.defs.items() if k[0] == key[0]}
    if not own:
        sections[key[0]].append(lines)
        return
    after = [v["at"] for k, v in own.items() if k > key]
    at = min(after) if after else max(v["end"] for v in own.values())
    edits.append((at, at, lines))


def in_order_defs(edits):
    groups, out = collections.OrderedDict(), []
    for at, end, lines in edits:
        groups.setdefault((at, end), []).append(lines)
    for (at, end), many in groups.items():
        if at == end:
            many.sort(key=lambda ls: ls[0][3:-1])
            out.append((at, end, [l for ls in many for l in ls]))
        else:
            out.append((at, end, many[0]))
    return out


def open_section(page, crate, entries):
    i, j = page.range(DEFS)
    heads = [(page.lines[k][4:].strip(), k) for k in range(i, j) if page.lines[k].startswith("### ")]
    own = [k for c, k in heads if c == crate]
    entries.sort(key=lambda ls: ls[0][3:-1])
    body = [l for ls in entries for l in ls]
    if own:
        # a heading whose entries all went
        page.lines[own[0] + 2:own[0] + 2] = body
    else:
        after = [k for c, k in heads if c > crate]
        if after:
            page.lines[min(after):min(after)] = [f"### {crate}", ""] + body + [""]
        else:
            e = j
            while e > i and not page.lines[e - 1].strip():
                e -= 1
            page.lines[e:e] = ["", f"### {crate}", ""] + body
    page.read()


def close_sections(page, say):
    """Headings without entries go."""
    i, j = page.range(DEFS)
    k = j - 1
    while k > i:
        if page.lines[k].startswith("### "):
            e = k + 1
            while e < j and not page.lines[e].strip():
                e += 1
            if e >= j or page.lines[e].startswith(("### ", "## ")):
                say("definitions: headings taken out", page.lines[k])
                last = e >= j
                del page.lines[k:e]
                if last:
                    # what stands at the page's end stays as it was
                    while len(page.lines) > 1 and not page.lines[-1].strip() and not page.lines[-2].strip():
                        page.lines.pop()
                j = page.range(DEFS)[1]
        k -= 1
    page.read()


# ---- what the page says otherwise than PREV

def audit(page, old, prev, say):
    pairs, left = pair(old.fns, prev.fns)
    first = by_page(page, (pairs, left))
    of = {(b.crate, b.name, b.file): (first[id(b)], b) for b in prev.fns if id(b) in first}
    pairs = [(a, b) for a, b in pairs if b is not None or not any(a is x for x in first.values())]
    for k, e in page.sigs.items():
        if k not in of:
            say("audit: signatures: a row of what PREV has not, or OLD had not", f"{k[0]} {k[2]} `{k[1]}`")
            continue
        a, b = of[k]
        if columns(a.sign, b.sign) != (e["old"], e["now"]):
            part = "audit: signatures: rows in the older form (lifetimes in front)" if columns(a.sign, b.sign, True) == (e["old"], e["now"]) else "audit: signatures: rows that say another thing"
            say(part, f"{named(b)}" + ("" if "older" in part else f"\npage {e['old']} | {e['now']}\nhere {' | '.join(columns(a.sign, b.sign))}"))
    for k, (a, b) in of.items():
        if k not in page.sigs and columns(a.sign, b.sign) != ("", ""):
            if named_where(page, a.crate, a.name)[0]:
                continue
            say(f"audit: signatures: no row ({'public' if b.pub else 'private'})", f"{named(b)}: {' | '.join(columns(a.sign, b.sign))}")
        if k not in page.clauses and clause_lines(a, b) and not named_where(page, a.crate, a.name)[0]:
            say("audit: clauses: no entry", f"{named(b)}" + "".join("\n" + l for l in clause_lines(a, b)))
    for a, b in pairs:
        if b is None:
            gone, other = named_where(page, a.crate, a.name)
            if not gone:
                say("audit: functions of OLD that are gone and that the tables of what is gone do not name", f"{full(a)} ({'public' if a.pub else 'private'}): {stands(gone, other)}")
    now = {(y.crate, y.name) for y in prev.types}
    for y in old.types:
        if y.pub and (y.crate, y.name) not in now:
            gone, other = named_where(page, y.crate, y.name)
            if not gone and not other:
                say("audit: public types and constants of OLD that are gone and that the page does not name", f"{y.kind} {y.crate} {y.file} `{y.name}`" + ("".join(f"; the name is in {q[0]}" for q in sorted(now) if q[1] == y.name)))
    for k, e in page.clauses.items():
        if k not in of:
            say("audit: clauses: an entry of what PREV has not, or OLD had not", f"{k[0]} {k[2]} `{k[1]}`")
        elif clause_lines(*of[k]) != e["lines"]:
            say("audit: clauses: entries that say another thing", named(of[k][1]))
    count = collections.Counter()
    for k, e in page.defs.items():
        here = f"{k[0]} `{k[1]}`"
        o_occ, p_occ = old.defs.get(k, []), prev.defs.get(k, [])
        if not o_occ:
            others = [x for x in old.defs if x[1] == k[1] and x not in prev.defs]
            o_occ = old.defs[others[0]] if len(others) == 1 else []
        if not p_occ:
            say("audit: definitions: an entry of what PREV has not", here)
            continue
        if form_of(o_occ, p_occ, e):
            count["as derived"] += 1
            x, y = e["old"], e["now"]
            if x and y and not by_more(" / ".join(x), " / ".join(y)):
                count["of them by words alone"] += 1
            continue
        sides = [(w, [fragments(t, occs) for t in e[w]]) for w, occs in (("old", o_occ), ("now", p_occ))]
        bad = [w for w, fs in sides if any(f is None for f in fs)]
        if not e["old"]:
            say("audit: definitions: an entry without an old text", here)
        elif bad:
            say(f"audit: definitions: entries whose {' and '.join(bad)} text is none of {'OLD' if bad == ['old'] else 'PREV' if bad == ['now'] else 'OLD and PREV'}", here + "".join(f"\npage {w}: {' / '.join(e[w])[:300]}\nhere {w}: {' / '.join(whole(it) for _, it in (o_occ if w == 'old' else p_occ))[:300]}" for w in bad))
        else:
            count["in a form of its own"] += 1
    for k in old.defs:
        if k in page.defs:
            continue
        a, b = sorted(texts(old.defs[k], False)), sorted(texts(prev.defs.get(k, []), False))
        if not a:
            continue
        if not b:
            gone, other = named_where(page, *k)
            if gone:
                count["gone, and named among what is gone"] += 1
            elif any(q[1] == k[1] and sorted(texts(v, False)) == a for q, v in prev.defs.items()):
                count["moved to another crate, word for word"] += 1
            elif other:
                count["gone, and named elsewhere on the page"] += 1
            else:
                say("audit: definitions and laws of OLD that are gone and that the page does not name", f"{k[0]} `{k[1]}` ({old.defs[k][0][0]})" + ("; the name is in " + ", ".join(q[0] for q in prev.defs if q[1] == k[1]) if any(q[1] == k[1] for q in prev.defs) else ""))
            continue
        if a == b:
            count["as at OLD"] += 1
            continue
        x, y = [t for t in a if t not in b], [t for t in b if t not in a]
        if not x or not y:
            say("audit: definitions: one of several statements of a name is new or gone, and no entry", f"{k[0]} `{k[1]}`")
        elif by_more(" / ".join(x), " / ".join(y)):
            say("audit: definitions: no entry, though they may differ by more than words", f"{k[0]} `{k[1]}`: " + "; ".join(f"'{p}' for '{q}'" for q, p in by_more(" / ".join(x), " / ".join(y))[:3]))
        else:
            count["differ by words alone, and no entry"] += 1
    for k, v in count.items():
        say("audit: counts (by crate and name)", f"{v} {k}")
    say("audit: counts (by crate and name)", f"{len(page.defs)} entries of definitions, {len(page.sigs)} rows of signatures, {len(page.clauses)} entries of clauses")
    say("audit: counts (by crate and name)", f"{sum(not it['local'] for v in old.defs.values() for _, it in v)} statements at OLD, {sum(not it['local'] for v in prev.defs.values() for _, it in v)} in PREV, besides those inside a 'where'")


def main(argv):
    given = [a for a in argv if not a.startswith("--")]
    flags = [a for a in argv if a.startswith("--")]
    path = None
    if "--page" in argv:
        path = argv[argv.index("--page") + 1]
        given.remove(path)
    if len(given) != 3 or set(flags) - {"--write", "--page", "--diff", "--audit", "--local", "--all-private", "--by-words", "--mend"}:
        print(__doc__)
        return 2
    options = {"local": "--local" in flags, "all-private": "--all-private" in flags, "by-words": "--by-words" in flags, "mend": "--mend" in flags}
    old, prev, new = (Tree(os.path.abspath(g)) for g in given)
    page = Page(path or os.path.join(new.root, "docs", "DESIGN-PASS.md"))
    was = page.text()
    report = Report()
    learn_words(page.lines, old, new)
    learn_aliases(old.root)
    if "--audit" in flags:
        audit(page, old, prev, report.say)
    do_functions(page, old, prev, new, report.say, options)
    do_types(page, prev, new, old, report.say)
    do_defs(page, old, prev, new, report.say, options)
    report.show()
    now = page.text()
    if "--diff" in flags:
        print("".join(difflib.unified_diff(was.splitlines(True), now.splitlines(True), "page", "page, as it would be", n=1)))
    if was == now:
        print("\npage4: nothing of the page changes")
    else:
        a, b = collections.Counter(was.split("\n")), collections.Counter(now.split("\n"))
        print(f"\npage4: {sum((b - a).values())} lines come, {sum((a - b).values())} lines go" + ("" if "--write" in flags else "; not written (--write)"))
        if "--write" in flags:
            with open(page.path, "w", encoding="utf-8") as f:
                f.write(now)
    return 0


if __name__ == "__main__":
    raise SystemExit(main(sys.argv[1:]))
