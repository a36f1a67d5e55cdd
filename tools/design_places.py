#!/usr/bin/env python3
"""The places that issue 46 counts, found by rules: `tools/design_places.py N`, from the top, prints `file:line: text` for those of point N, 1 to 8.
1, 3, 4, 6, 7: patterns in src/, without comments and clauses. 2: functions that are one but for names, types and numbers; types with one name or the
same fields. 5: conditions (a parameter named by its type) and neighbouring parameters that three functions or more have. 8: answers of at most 14
letters, long lines of three Answers files or more. `kept`: `// Kept:` stands on the place's line or on one of the three above it."""
import collections, glob, re, sys
PATTERNS = {
    1: [r"^    (?:Refused\(|Nothing,)", r"^(?:pub )?struct \w+ \{[^}]*: bool", r"\b(?:kind|code): u8\b", r"\bput\(buffer, \w+, \d", r"\bfn \w+\([^)]*\b[tk]: usize",
        r"\b(?:kind|code|verb)\)? (?:[=!]=|[<>]=?) \d|\d <=? \(?[\w.]*(?:kind|code)\b", r"\bmatch [^{;]* \{\s*(?:\d+ |\d+\.\.|names::)",
        r"\bconst (?:\w+: (?:i32|u32|usize) = [\dW]\d?;|NONE|WRONG|\w+: u32)"],
    3: [r"\bfor (?!_ )\w+ in [^{\n]*\.\.", r"\bwhile\b"],
    4: [r"\bas (?:[ui]\d+|[ui]size)\b", r"\{ [01] \} else \{ [01] \}|\{\s*return [01];\s*\}\s*[01]\s", r"\btrue;?\s*\}\s*(?:else \{\s*)?false\b|=> true,\s",
        r"256 \* |[\w)] [*/%] 256\b|0x3[07] \+|b'[0A]' [+-]|% 10\b|_decimal\(", r"^\s*\w+::\w+ => \d+,$|^\s*\d+ => \w+::\w+,$", r"\bif (\w+) < (\w+) \{ \1 \}|\w\] == \w+[(\[]"],
    6: [r"\b\w+: (?:&(?:mut )?)?\[[^\]]+\],\s*(?:end|n|size|count|places|length|at|from): usize", r"^    (?:pub )?(?:end|length|held|count|number): usize,",
        r"=\s*\*b\"", r"^    (?:pub )?\w+: \[\w+; \w+\],", r"\bconst \w+: \[\w+; \w+\] = \["],
    7: [r"\bmatch [^{;]* \{(?:[^=;}]+=> [\w:]+\([^;{}]*?\),){3}", r"\bfn \w+[^{;]*?\b(\w+): bool[^{]*\{[^}]*?\bif !?\1 \{$", r"\bif [\w\[\]]+ == [\w:]+ \{$[^}]*;\s*\} else \{"]}
point, found, groups = int(sys.argv[1]), set(), collections.defaultdict(set)
for path in sorted(glob.glob("crates/*/src/*.rt")):
    text = re.sub(r"(?m)//.*$|^ghost .*$", "", open(path).read())
    code = re.sub(r"(?ms)^ +(?:requires|ensures)\b.*?(?=^ *\{$)", lambda m: "\n" * m[0].count("\n"), text)
    line = lambda m, i=0: (path, m.string.count("\n", 0, m.start(i) + len(m[i]) - len(m[i].lstrip())) + 1)
    found |= {line(m) for rule in PATTERNS.get(point, []) for m in re.finditer(rule, code, re.M)}
    for m in re.finditer(r"^( *)(?:pub )?(?:(fn) \w+[^(\n]*|(?:struct|enum) (\w+) (?=\{))(.*?)^\1\}$", code, re.M | re.S) if point == 2 else ():
        word = lambda w: w[0] if not m[2] or w[0] in "let if else for match return while mut".split() else "x"
        shape = re.sub(r"b'.+?'|(?:\w+::)*\w+", word, re.sub(r"pub |\s+", lambda s: " " * s[0].isspace(), m[4]))
        groups[shape.replace("x: x, ", "").replace("x, ", "")].add(line(m)), groups["type " * bool(m[3]) + (m[3] or "")].add(line(m))
    for m in re.finditer(r"\bfn (\w+)[^(\n]*\(((?:[^()]|\([^()]*\))*)\)((?:(?!\bfn ).)*?)\{$", text, re.M | re.S) if point == 5 else ():
        parts = [p.strip() for p in re.split(r",\s", m[2]) if ": " in p]
        for clause in re.split(r"×|ensures", " ".join(re.findall(r"requires \{((?:(?!ensures).)*)\}", m[3], re.S))):
            groups[re.sub(r"\b\w+\b(?:\.\w+)?", lambda w: dict(p.split(": ", 1) for p in parts).get(w[0].split(".")[0], w[0]), clause).strip(" ()")].add(line(m, 1))
        {groups[", ".join(pair)].add(line(m, 1)) for pair in zip(parts, parts[1:])}
for path, n, t in ((p, n, t) for p in glob.glob("crates/*/proofs/**/Answers.antt", recursive=True) if point == 8 for n, t in enumerate(open(p), 1)):
    found |= {(path, n)} if re.match(r"\S+( c)? = .{1,14}$", t) else set()
    groups[re.sub(r"^\S+( c)? = |\n", "", t)].update({(path, n)} if " = " in t and len(t) > 41 else ())
for name, places in groups.items():
    found |= {p + (name,) for p in places} if name and len({p[0] if point == 8 else p for p in places}) >= (2 if point == 2 else 3) else set()
for p in sorted(found, key=lambda p: p[2:] + p[:2]):
    near = open(p[0]).read().split("\n")[max(0, p[1] - 4):p[1]]
    print(f"{p[0]}:{p[1]}: {near[-1].strip()}{'   kept' * ('// Kept:' in str(near))}{'   [' + p[2] + ']' if p[2:] else ''}")
print(len(found), "places of point", point, f"in {len({p[2:] for p in found})} families" * (point in (2, 5)))
