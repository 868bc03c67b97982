#!/usr/bin/env python3
"""Finds the places in src/ that an older form of the language left: what docs/DESIGN-PASS.md counts.

usage: python3 tools/places.py [FOLDER]     prints each place by point, and the count of each point; FOLDER is another checkout
       python3 tools/places.py --counts     prints the counts alone
"""
import pathlib
import re
import sys

TOKEN = re.compile(r"[A-Za-z_]\w*|\d[\w]*|'[a-z]+|\S")
KEYWORD = set("fn let mut if else for in while return match struct enum impl pub self Self true false Some None Ok Err as const break".split())


class Function:
    """A function of the code: where it stands, its parameters, clauses and body."""

    def __init__(self, file, line, name, head, clauses, body):
        self.file, self.line, self.name = file, line, name
        self.head, self.clauses, self.body = head, clauses, body

    def parameters(self):
        inside = self.head[self.head.index("(") + 1 :]
        return re.findall(r"(?:mut )?(\w+): (&?(?:mut )?[\w\[\]<>; ]+)", inside)

    def where(self):
        return f"{self.file}:{self.line} {self.name}"


def closing(text, start):
    """The place behind the brace that closes the one at start."""
    depth = 0
    for place in range(start, len(text)):
        depth += {"{": 1, "}": -1}.get(text[place], 0)
        if depth == 0:
            return place + 1
    return len(text)


def functions(file, text):
    found = []
    for start in re.finditer(r"^ *(?:pub(?:\(crate\))? )?(?:const )?fn (\w+)", text, re.M):
        at = start.end()
        clauses = []
        while True:
            brace = re.compile(r"\b(requires|ensures|ghost)\b\s*\w*:?\s*\{|\{|;").search(text, at)
            if not brace or brace.group() == ";":
                break
            end = closing(text, brace.end() - 1)
            if brace.group(1):
                clauses.append(" ".join(text[brace.end() : end - 1].split()))
                at = end
            else:
                first = re.search(r"requires|ensures|\{", text[start.end() :])
                head = text[start.start() : start.end() + first.start()]
                found.append(Function(file, text.count("\n", 0, start.start()) + 1, start.group(1), head, clauses, text[brace.end() : end - 1]))
                break
    return found


def skeleton(text):
    """A text up to its names, types and numbers."""
    names = {}
    row = []
    for token in TOKEN.findall(re.sub(r"//.*|\bas u\w+", "", text)):
        if token in KEYWORD or not re.match(r"\w|'", token):
            row.append(token)
        else:
            row.append(names.setdefault(token, f"x{len(names)}"))
    return " ".join(row)


def report(places, point, what, where):
    places.setdefault(point, []).append((what, where))


def lines_of(file, text, pattern, flags=re.M):
    for hit in re.finditer(pattern, text, flags):
        yield f"{file}:{text.count(chr(10), 0, hit.start()) + 1} {' '.join(hit.group().split())[:90]}"


BY_TEXT = [
    (1, "a variant that means nothing", r"^    (?:Unknown|Silent|Nothing|Idle),"),
    (1, "a flag beside a value", r"^    pub \w+: bool,"),
    (1, "a number that means none", r"let mut \w+ = \d+;\s*'\w+: for"),
    (1, "a flag for an outcome", r"fn \w+\([^{}]*&mut [^{}]*\) -> bool"),
    (1, "a code of three cases", r"^(?!.*ghost).*\bOption<bool>"),
    (1, "an Option that is an error", r"-> Option<Refusal>"),
    (1, "a number for a kind", r"\.kind\(\d\)|put_byte\(out, \d\)\?;(?=\s*(?:put|let))|first == \d|bytes\[0\] == \d|match bytes\[0\]"),
    (1, "? by hand", r"let Some\([^=]*\) = [^;{}]* else \{\s*return None;|None => None|Err\(_\) => Err\("),
    (1, "an error made by hand", r"=> Err\(AllocError\)|Err\(NotAdmitted::\w+"),
    (3, "an index counted by hand", r"for (\w+) in [^{}]*\.\.[^{}]*\{(?:(?!\n    \}|\n\}).)*?\[(?:\1\b|[^\]]*\b\1\b)"),
    (3, "a while on a length", r"while [^{}\n]*\.len\(\)"),
    (3, "a search by hand", r"for [^{}]* \{\s*(?:let [^;]*;\s*)?if [^{}]* \{\s*return (?:true|Some\([^;]*\));\s*\}\s*\}\s*(?:false|None)"),
    (3, "a sum or a largest by hand", r"for [^{}]* \{\s*\w+ (?:\+= |= \w+\.(?:max|saturating_add))[^;]*;\s*\}"),
    (3, "a count beside a loop", r"\b\w+ = \w+\.saturating_add\(1\);\s*\}\s*\w+\.flush"),
    (4, "bytes split or joined by hand", r"[/%] 0x1[0_]*\b.*|\* 0x100 \+"),
    (4, "a copy by hand", r"\{\s*(?:(\w+): (\w+)\.\1,\s*){2,}|\{\s*(\w+): self\.\3,\s*\w+: self\.\w+ [+-]|let mut row = self\.from"),
    (4, "a conversion by hand", r"if [\w.()]+ < 0xffff_ffff \{\s*[\w.()]+ as u32"),
    (4, "an empty value by hand", r"\{\s*switch: 0,\s*ends: 0,\s*wire: 0,?\s*\}|\{\s*first: (?:0|\[0; 8\]),\s*\w+: (?:0|\[0; 8\]),?[^}]*\}|\{\s*bursts: \[0; 8\][^}]*\}|\{\s*line: Line::empty\(\),\s*ticks: 0,?\s*\}"),
    (4, "an equality by hand", r"if let (?:Program|Stage)::\w+ = "),
    (4, "a name by hand", r"=> \"(?:admit|ports|evening)\"|== \"(?:admit|ports|evening)\""),
    (6, "a buffer with a count beside it", r"^    pub (?:hops|count|switches): u8,$|^    pub ticks: \[u64; 16\],"),
    (6, "arrays side by side", r"^    pub (?:bursts|rates|longest|first|last|count|ticks): \[u\d+; 8\],"),
    (6, "slices side by side", r"levels: &mut \[Level\],\s*classes: &\[u8\]"),
    (6, "places in an arena", r"^    pub next: u32,"),
    (7, "a function in a table, or a dyn", r"\bdyn \w|: fn\(|\[fn\("),
]


def find(top):
    places = {}
    all_functions = []
    structs = {}
    for crate in sorted((top / "crates").iterdir()):
        crate_functions = []
        for path in sorted((crate / "src").rglob("*.rt")):
            file, text = str(path.relative_to(top)), path.read_text()
            for point, what, pattern in BY_TEXT:
                flags = re.M | (re.S if "(?!\\n" in pattern else 0)
                for where in lines_of(file, text, pattern, flags):
                    report(places, point, what, where)
            crate_functions += functions(file, text)
            for struct in re.finditer(r"^pub struct (\w+)[^{;]*\{[^}]*\[\w+; \d+\][^}]*\}", text, re.M):
                structs.setdefault(skeleton(struct.group()), []).append(f"{file} {struct.group(1)}")
        thin_pairs(places, crate_functions)
        together(places, crate_functions)
        all_functions += crate_functions
    twins(places, all_functions, structs)
    return places


def alike(clauses):
    """Clauses, whatever the value that they speak of is called."""
    return {re.sub(r"\b\w+\.(now|old|new)\b", r"it.\1", clause) for clause in clauses}


def thin_pairs(places, row):
    """A function that only calls another one with the same clauses."""
    for outer in row:
        for inner in row:
            same = outer is not inner and outer.clauses and alike(outer.clauses) == alike(inner.clauses)
            if same and re.search(rf"\b{inner.name}\(", outer.body) and outer.body.count(";") == 0:
                report(places, 2, "two functions with one contract", f"{outer.where()} / {inner.name}")


def twins(places, row, structs):
    """Functions, or types that are tables, that are the same up to names, types and numbers."""
    groups = {}
    for f in row:
        whole = skeleton(f.head.split("fn ", 1)[1] + f.body)
        if len(whole.split()) >= 20:
            groups.setdefault(whole, []).append(f.where())
    for group in list(groups.values()) + list(structs.values()):
        for where in group[1:]:
            report(places, 2, "the same but for a name, a type or a number", f"{where} as {group[0]}")


def together(places, row):
    """Three parameters or more that stand in three functions or more, and clauses of three functions or more."""
    groups = {}
    for f in row:
        given = [f"{name}: {kind}" for name, kind in f.parameters()]
        for size in range(3, len(given) + 1):
            for start in range(len(given) - size + 1):
                groups.setdefault(tuple(given[start : start + size]), []).append(f)
    largest = {}
    for group, holders in groups.items():
        if len(holders) >= 3:
            for f in holders:
                if len(group) > len(largest.get(f, ())):
                    largest[f] = group
    for f, group in largest.items():
        report(places, 5, "parameters that go together", f"{f.where()}: {', '.join(group)}")
    premises = {}
    for f in row:
        for clause in set(c for c in f.clauses):
            for premise in set(re.findall(r"((?:Holds|Fits|Counts) [\w.]+ [\w.]+(?: lines| ls)?) →", clause)):
                kind = premise.split()[0]
                premises.setdefault(kind, {})[f.where()] = premise
    for kind, holders in premises.items():
        if len(holders) >= 3:
            for where, premise in holders.items():
                report(places, 5, "a fact of a value in three contracts or more", f"{where}: {premise}")


def main():
    rest = [a for a in sys.argv[1:] if a != "--counts"]
    places = find(pathlib.Path(rest[0] if rest else "."))
    for point in range(1, 8):
        row = places.get(point, [])
        print(f"point {point}: {len(row)}")
        if "--counts" not in sys.argv:
            for what, where in sorted(row):
                print(f"  {what}: {where}")


main()
