#!/usr/bin/env python3
"""nolaw.py TREE [CRATE..]: answers that cite no law of the repository's crates (only the kit's and the goal's own facts)."""
import glob, os, re, sys
def blocks(text):
    lines = text.split("\n"); out = []; cur = None
    for i, l in enumerate(lines):
        if re.match(r"^(pub |abbrev |abbrev pub |unfoldable |unfoldable pub )*[^\s:(]+ :", l) and not l.startswith("--"):
            cur = [i, i + 1, l]; out.append(cur)
        elif l.startswith("unfolding"): pass
        elif l and not l[0].isspace() and not re.match(r"^\S+( \S+)* =", l) and cur is not None:
            cur = None
        if cur is not None: cur[1] = i + 1
    return lines, out
def scan(tree, crates):
    for at in sorted(glob.glob(f"{tree}/crates/*")):
        name = os.path.basename(at)
        if crates and name not in crates: continue
        for folder, _, files in os.walk(f"{at}/proofs"):
            if "Answers.antt" not in files: continue
            path = f"{folder}/Answers.antt"; text = open(path, encoding="utf-8").read()
            lines, found = blocks(text)
            laws, kit = set(), set()
            plain = {'arith','refl','sym','ap','subst','◌∙◌','rw','simp','lib','Prelude','Common','length','◌≤◌'}
            for m in re.finditer(r"^use Rattle\.(\w+)\.(specs|proofs)\.((?:[\w-]|\.(?!\{))+)(?:\.\{([^}]*)\})?(?: as (\w+))?", text, re.M):
                names = [re.sub(r".* as ", "", x.strip()) for x in (m.group(4) or "").split(",") if x.strip()]
                if m.group(5): names.append(m.group(5))
                if m.group(1) == "std": kit |= set(names)
                elif m.group(3).endswith("Goals"): pass
                else: laws |= set(names)
            local = {re.match(r"(?:pub |abbrev |unfoldable )*([^\s:(]+) :", b[2]).group(1) for b in found if "goal." not in b[2]}
            for b in found:
                if not re.match(r"(?:abbrev )?pub ([^\s:]+) : goal\.", b[2]): continue
                body = "\n".join(lines[b[0] + 1 : b[1]])
                words = set(re.findall(r"[^\s()\[\]{},.]+", body))
                if words & (laws | local): continue
                if os.environ.get('PLAIN') and (words & kit) - plain: continue
                yield path, b[0], b[1], re.match(r"(?:abbrev )?pub ([^\s:]+)", b[2]).group(1), re.sub(r"\s+", " ", body)
if __name__ == "__main__":
    n = 0
    for path, a, z, name, body in scan(sys.argv[1], sys.argv[2:]):
        n += 1; print(os.path.relpath(path, sys.argv[1]), name, "::", body[:150])
    print(n)
