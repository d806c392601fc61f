#!/usr/bin/env python3
"""Lists the places in crates/*/src that the page docs/DESIGN-PASS.md counts, point by point.

    python3 tools/design_places.py [FOLDER] [POINT ..]

FOLDER is the top of a checkout (default: here). Each line is POINT.KIND file:line text; the last lines count them.
It goes by text: a hit is a place to be judged, and the page says how each was.
"""
import collections
import pathlib
import re
import sys

HITS = {
    "1": [
        ("number for a kind", r"\b(sender|supplier): u8\b|const (DEVICE|MEMORY|NO_DATA|NOBODY): u8|\bfn kind\(word: u32\)"),
        ("flag beside a value", r"\backed: bool\b|\bloose: bool\b|\bexclusive: bool\b|\bvdirty: bool\b"),
        ("arm that forwards", r"^\s*(Ok\((\(\)|[a-z]+)\) => (Ok\(|\{\}|[a-z]+,)|Err\(_\) => (Err\(|unreachable)|Err\([a-z]+\) => Err\(|None => (None|Ok|Err|false|0)\b|Some\(.*\) => (Some\(|Err\(|Ok\(|true\b|[a-z]+,))"),
        ("let else that refuses", r"let (Some|Ok)\(.*\) = .* else \{"),
        ("match to a flag", r"=> (true|false),$"),
    ],
    "3": [
        ("loop over numbers", r"\bfor \w+ in .*\.\."),
        ("while", r"\bwhile\b"),
        ("counter by hand", r"\b\w+ \+= 1;|\.wrapping_add\(1\)"),
        ("run of indices by hand", r"\[(at|\w+) \+ \d\]|\[\w+\[0\]|&row\[\d\]|[( ][0-3] < n\b|\(next \+ \d\)"),
        ("for over a collection", r"\bfor \w+ in (?!.*\.\.)"),
    ],
    "4": [
        ("equality by parts", r"\.0 == |\.0 != |\.number\(\) == |\.number\(\) != "),
        ("conversion by a function", r"pub fn (number\(self\)|new\((number|word): u16\)|kind\(word)|pub fn (word|place)\(self\) -> u32"),
        ("From, TryFrom or Display by hand", r"^impl.* (From|TryFrom)<.*> for |^impl.* fmt::Display for "),
        ("copied part by part", r"let \w+ = \w+\.(words|messages|process\.0|page\.0|frame\.0);|let \w+\([a-z]+\) = self;"),
        ("printed by hand", r"\bdigit\("),
    ],
    "5": [
        ("set and way apart", r"\bset: usize, way: usize\b|^\s+set: usize,$"),
        ("range as a premise", r"ensures.*\.?set < [vr]_sets|ensures.*\bway < [vr]_ways"),
        ("ranged processor as a premise", r"Ranged \(?p"),
        ("records beside an index or a count", r"processors: &mut Processors"),
        ("both rules apart", r"v_rule: &V"),
        ("in range, clause after clause", r"InRange"),
        ("sound buffer, clause after clause", r"M\.Map\.sound self\.old\.below × Agree"),
        ("a call counted", r"accepted = self\.accepted\.saturating_add\(1\)"),
    ],
    "6": [
        ("buffer beside a count", r"^\s+pub\(crate\) count: u8|count: usize,$|count: usize,"),
        ("parallel array", r"pub [vr]rule: \["),
        ("offset by hand", r"put\(out, \d+"),
        ("fixed array of cells", r"^\s+(pub )?\w+: \[.*; [A-Z_]+\],"),
    ],
    "7": [
        ("switch on a step", r"match change|Change::"),
        ("dyn or fn pointer", r"\bdyn \w|: fn\("),
    ],
}


def functions(path):
    """Every fn of a file with its body, as (name, line, text)."""
    lines = path.read_text().split("\n")
    for i, line in enumerate(lines):
        m = re.match(r"(\s*)(pub(\(crate\))? )?fn (\w+)", line)
        if not m:
            continue
        indent = m.group(1)
        for j in range(i, len(lines)):
            if lines[j].startswith(indent + "}") or (j == i and lines[j].rstrip().endswith("}")):
                yield m.group(4), i + 1, "\n".join(lines[i : j + 1])
                break
            if j > i and lines[j].strip() == "{}":
                yield m.group(4), i + 1, "\n".join(lines[i : j + 1])
                break


def shape(text):
    """A function without its clauses and comments, every name and number the same."""
    code = "\n".join(l for l in text.split("\n") if not re.match(r"\s*(ensures|requires|//)", l))
    keep = {"fn", "pub", "if", "else", "for", "in", "match", "let", "mut", "return", "self", "while", "Some", "None", "Ok", "Err", "true", "false"}
    tokens = re.findall(r"\w+|[^\w\s]", code)
    return " ".join(t if t in keep or not re.match(r"\w", t) else "x" for t in tokens)


def main():
    args = sys.argv[1:]
    top = pathlib.Path(args.pop(0)) if args and not args[0].isdigit() else pathlib.Path(".")
    points = args or ["1", "2", "3", "4", "5", "6", "7"]
    files = sorted(top.glob("crates/*/src/*.rt"))
    counts = collections.OrderedDict()

    def hit(point, kind, path, line, text):
        counts[(point, kind)] = counts.get((point, kind), 0) + 1
        print(f"{point}.{kind}: {path.relative_to(top)}:{line}: {text.strip()[:110]}")

    for point in points:
        for kind, pattern in HITS.get(point, []):
            for path in files:
                for number, line in enumerate(path.read_text().split("\n"), 1):
                    if line.strip().startswith("//") or not re.search(pattern, line):
                        continue
                    hit(point, kind, path, number, line)
        if point == "1":
            for path in files:
                for m in re.finditer(r"enum (\w+) \{(.*?)\n\}", path.read_text(), re.S):
                    variants = re.findall(r"^    (\w+)(.?)", re.sub(r"//.*", "", m.group(2)), re.M)
                    if len(variants) == 2 and sorted(v[1] == "," for v in variants) == [False, True]:
                        line = path.read_text()[: m.start()].count("\n") + 1
                        hit("1", "enum shaped as Option or Result", path, line, m.group(1))
        if point == "2":
            groups = collections.defaultdict(list)
            for path in files:
                for name, line, text in functions(path):
                    if text.count("\n") >= 4:
                        groups[shape(text)].append((path, line, name))
            for group in groups.values():
                if len(group) > 1:
                    for path, line, name in group:
                        hit("2", "of one shape", path, line, name + " (" + ", ".join(g[2] for g in group if g[2] != name or g[0] != path) + ")")
    for (point, kind), n in counts.items():
        print(f"{n:4} {point}.{kind}")


main()
