#!/usr/bin/env python3
"""Counts the places of the sources that are written in older forms: numbers for kinds, twins, loops by hand, and so on, under eight points.

usage: places.py [COMMIT]      at the top of the repository; without COMMIT it counts the working tree, else the tree of that commit

A place is found by a rule, and the rules are below, each with a comment that says what it finds. Most look at one function, type or constant
at a time, so an item that has the same thing twice is one place of that rule; each loop is a place of its own. The output:

    POINT+RULE FILE:LINE (item)  text        a place
    apart POINT+RULE FILE:LINE (item)  why   found by the rule, and no place for the reason that stands in APART
    point N: so many places, by rule and by crate

It reads text and knows no types: what it cannot see is on the page that cites it, docs/DESIGN-PASS.md.
"""
import collections, itertools, re, subprocess, sys

POINTS = {
    1: "numbers, flags and own enums where Option, Result or an enum says it",
    2: "twins",
    3: "loops and searches by hand",
    4: "equality, copying, conversion and printing by hand",
    5: "facts and parameters that travel together",
    6: "buffers with a length, parallel arrays, links by number",
    7: "switches on a step, tables of functions",
    8: "proof files",
}
Place = collections.namedtuple("Place", "rule path line item text")
Fn = collections.namedtuple("Fn", "path line item name params answer clauses body at doc")
Type = collections.namedtuple("Type", "path line name word derives body doc")


# ---- reading ----

def files(commit):
    """Path and text of each source and proof file."""
    if commit:
        names = subprocess.run(["git", "ls-tree", "-r", "--name-only", commit, "crates"], capture_output=True, text=True, check=True).stdout
    else:
        names = subprocess.run(["git", "ls-files", "-co", "--exclude-standard", "crates"], capture_output=True, text=True, check=True).stdout
    for path in sorted(names.split("\n")):
        if re.match(r"crates/\w+/(src/.*\.rt|proofs/.*\.antt)$", path):
            if commit:
                yield path, subprocess.run(["git", "show", f"{commit}:{path}"], capture_output=True, text=True, check=True).stdout
            else:
                yield path, open(path, encoding="utf-8").read()


def quiet(text):
    """The text with comments and strings blanked, of the same length."""
    blank = lambda m: re.sub(r"[^\n]", " ", m[0])
    return re.sub(r'//[^\n]*|b?"(?:[^"\\]|\\.)*"', blank, text)


def closed(text, at):
    """Behind the bracket that closes the one at `at`."""
    pairs, deep = {"(": ")", "[": "]", "{": "}"}, 0
    opening = text[at]
    for i in range(at, len(text)):
        deep += (text[i] == opening) - (text[i] == pairs[opening])
        if deep == 0:
            return i + 1
    return len(text)


def line_of(text, at):
    return text.count("\n", 0, at) + 1


def squeezed(text):
    return re.sub(r"\s+", " ", text).strip()


def doc_above(text, at):
    """The comment lines right above an item, attributes skipped."""
    said = []
    for line in reversed(text[:at].split("\n")[:-1]):
        if line.strip().startswith("//"):
            said.append(line.strip().lstrip("/! "))
        elif not line.strip().startswith("#["):
            break
    return " ".join(reversed(said))


def parts(text):
    """Split at the commas that stand in no bracket."""
    out, deep, last = [], 0, 0
    for i, c in enumerate(text):
        deep += (c in "([{<") - (c in ")]}" or c == ">" and text[i - 1] != "-")
        if c == "," and deep == 0:
            out.append(text[last:i])
            last = i + 1
    return [squeezed(p) for p in out + [text[last:]] if p.strip()]


def functions(path, text):
    code = quiet(text)
    owners = []
    for m in re.finditer(r"(?m)^\s*impl\b([^{;]*)\{", code):
        head = re.sub(r"^<[^>]*>", "", m[1].strip()).strip()
        owners.append((m.start(), closed(code, m.end() - 1), re.sub(r"<'[^>]*>", "", head)))
    for m in re.finditer(r"(?m)^\s*trait\b\s*(\w+)[^{;]*\{|^\s*pub trait\b\s*(\w+)[^{;]*\{", code):
        owners.append((m.start(), closed(code, m.end() - 1), m[1] or m[2]))
    for m in re.finditer(r"\bfn\s+(\w+)", code):
        at, deep = m.end(), 0
        while code[at] != "(" or deep:
            deep += (code[at] == "<") - (code[at] == ">" and code[at - 1] != "-")
            at += 1
        end = closed(code, at)
        params = []
        for p in parts(code[at + 1:end - 1]):
            name, _, typ = p.partition(":")
            if typ:
                params.append((name.replace("mut ", "").strip(), re.sub(r"<'\w+>|'\w+ ?", "", typ).strip()))
        i, clauses = end, []
        while not re.match(r"(requires|ensures)\b|[{;]", code[i:i + 9]):
            i = closed(code, i) if code[i] == "[" else i + 1
        answer = squeezed(code[end:i]).removeprefix("->").strip()
        while code.startswith(("requires", "ensures"), i):
            brace = code.find("{", i)
            clauses.append((code[i:i + 8].strip(), squeezed(code[brace + 1:closed(code, brace) - 1])))
            i = closed(code, brace)
            i += len(code[i:]) - len(code[i:].lstrip())
        body = code[i:closed(code, i)] if code[i:i + 1] == "{" else ""
        owner = next((o for s, e, o in owners if s < m.start() < e), "")
        item = (owner + "::" if owner else "") + m[1]
        yield Fn(path, line_of(code, m.start()), item, m[1], params, answer, clauses, body, i, doc_above(text, m.start()))


def types(path, text):
    code = quiet(text)
    for m in re.finditer(r"(?m)^(?:pub(?:\(crate\))? )?(struct|enum) (\w+)[^{;(]*([{;(])", code):
        body = "" if m[3] == ";" else code[m.end() - 1:closed(code, m.end() - 1)]
        above = text[:m.start()].rstrip().split("\n")
        derives = " ".join(re.findall(r"derive\(([^)]*)\)", " ".join(above[-3:]) if above[-1].strip().startswith("#[") else ""))
        yield Type(path, line_of(code, m.start()), m[2], m[1], derives, body, doc_above(text, m.start()))


def variants(body):
    return [re.sub(r"^(#\[[^\]]*\] ?)*", "", p) for p in parts(body[1:-1])]


class Tree:
    def __init__(self, commit):
        self.src, self.proofs = {}, {}
        for path, text in files(commit):
            (self.src if path.endswith(".rt") else self.proofs)[path] = text
        self.code = {p: quiet(t) for p, t in self.src.items()}
        self.fns = [f for p, t in self.src.items() for f in functions(p, t)]
        self.types = [x for p, t in self.src.items() for x in types(p, t)]


def in_bodies(tree, rule, pattern, where=lambda f: True):
    """A place for each function whose body has the pattern; the text is the line of the first."""
    for f in tree.fns:
        hits = list(re.finditer(pattern, f.body)) if f.body and where(f) else []
        if hits:
            code = tree.src[f.path]
            at = f.at + hits[0].start() + len(hits[0][0]) - len(hits[0][0].lstrip())
            line = line_of(code, at)
            said = squeezed(code.split("\n")[line - 1])
            said = squeezed(hits[0][0]) if said.startswith("}") else said
            more = f"  (and {len(hits) - 1} more)" if len(hits) > 1 else ""
            yield Place(rule, f.path, line, f.item, said + more)


def of_fn(rule, f, text=""):
    return Place(rule, f.path, f.line, f.item, text or f"-> {f.answer}")


# ---- point 1 ----

def point_1(tree):
    # 1a: a refusal handed back as an Option
    for f in tree.fns:
        if re.search(r"Option<\w*(Refusal|Fault|Error)\b", f.answer):
            yield of_fn("1a", f)
    # 1b: a match whose patterns are plain numbers, so a kind, tag or status is told by its number
    yield from in_bodies(tree, "1b", r"\n\s*(\d+(\.\.=\d+)?)( \| \d+)* (if [^\n]*)?=>")
    # 1c: a match that gives a number for each variant
    yield from in_bodies(tree, "1c", r"=> \d+,")
    # 1d: a kind, status, mark or letter compared with a number or a constant, or written as a number
    yield from in_bodies(tree, "1d", r"\b(kind|status|letter|tag|optional|reassigns) (==|!=|<=|>=) [\w']+|"
                         r"\.[pq] (<=|>=|!=) \d+|\.[pq] == [1-9]|= if \w+\.q == 0|\b(status|reassigns): [01],")
    # 1e: a field or variant that holds a kind, status, mark or letter as a number
    for t in tree.types:
        for m in re.finditer(r"\b(kind|status|letter|tag|optional|reassigns): (u8|u16)|\b(Kind|Status)\(usize, (u8)\)", t.body):
            yield Place("1e", t.path, t.line, t.name, m[0])
    # 1f: a parameter that does
    for f in tree.fns:
        for name, typ in f.params:
            if name in ("kind", "status", "letter", "tag") and typ in ("u8", "u16"):
                yield of_fn("1f", f, f"{name}: {typ}")
    # 1g: a constant that is one kind's number, or the names of kinds by their numbers
    for path, code in tree.code.items():
        for m in re.finditer(r"(?m)^[ \t]*(?:pub )?const (\w+): ([^=]+) =", code):
            if re.search(r"\bkinds?\b|by its p\b", doc_above(tree.src[path], m.start())):
                yield Place("1g", path, line_of(code, m.start(1)), m[1], m[2].strip())
    # 1h: NONE, the number that stands for no row, in the body of a function, or as a constant
    yield from in_bodies(tree, "1h", r"\bNONE\b|4294967295")
    for path, code in tree.code.items():
        for m in re.finditer(r"(?m)^(?:pub )?const (\w+): u32 = 4294967295", code):
            yield Place("1h", path, line_of(code, m.start(1)), m[1], "the constant")
    # 1i: 0 answered for none, or where there is nothing to answer
    for f in tree.fns:
        if f.answer in ("u8", "u16", "u32", "usize") and (re.search(r"\b0 (where|for one)\b|, or 0\b", f.doc) or squeezed(f.body) == "{ 0 }"):
            yield of_fn("1i", f)
    for t in tree.types:
        if re.search(r"\b0 (none|for none)\b", t.doc):
            yield Place("1i", t.path, t.line, t.name, "a field that is 0 for none")
    # 1j: a bool that says whether what stands behind a `&mut` parameter was made
    for f in tree.fns:
        if f.answer == "bool" and any(t.startswith("&mut [") for _, t in f.params):
            yield of_fn("1j", f, "(" + ", ".join(f"{n}: {t}" for n, t in f.params) + ") -> bool")
    # 1k: a bool or an optional bool inside a Result
    for f in tree.fns:
        if re.search(r"Result<(Option<)?bool\b", f.answer):
            yield of_fn("1k", f)
    # 1l: an enum of two or three variants, some with and some without a value: the shape of Option or Result
    for t in tree.types:
        vs = variants(t.body) if t.word == "enum" else []
        if 2 <= len(vs) <= 3 and any("(" in v or "{" in v for v in vs) and any(re.fullmatch(r"\w+", v) for v in vs):
            yield Place("1l", t.path, t.line, t.name, squeezed(t.body)[:110])
    # 1m: an Option or Result taken apart or made by hand, where `?` or a method says it (`let .. else` is a form of today)
    yield from in_bodies(tree, "1m", r"(Ok|Some)\((\w+|\(\))\) => (Ok|Some)\(\2\)|\n\s*None => (true|false|\w+|Ok\(None\)),|else \{\s*None\s*\}|"
                         r"if let Some\(\w+\) = [^{]*\{\s*return Err\(")


# ---- point 2 ----

WORD = re.compile(r"[A-Za-z_]\w*|\d[\w]*|[^\s\w]")
KEPT = set("if else match for while in let return mut fn Some None Ok Err true false self as break".split())


def shape(body, inside=True):
    """The body with every name and number replaced by the order in which it first comes; what stands in a call's brackets is left out on wish."""
    while not inside and re.search(r"\([^()]+\)", body):
        body = re.sub(r"(?<=\w)\([^()]*\)", "<>", body) if re.search(r"(?<=\w)\([^()]*\)", body) else re.sub(r"\([^()]*\)", "", body)
    seen, out = {}, []
    for w in WORD.findall(body):
        if re.match(r"\w", w) and w not in KEPT:
            w = "n%d" % seen.setdefault(w, len(seen))
        out.append(w)
    return " ".join(out)


def point_2(tree):
    # 2a: functions whose bodies are equal up to the names and numbers in them (of 12 words at least)
    groups = collections.defaultdict(list)
    for f in tree.fns:
        if len(WORD.findall(f.body)) >= 12:
            groups[shape(f.body)].append(f)
    for fs in groups.values():
        if len(fs) > 1:
            for f in fs:
                yield of_fn("2a", f, "like " + ", ".join(o.item for o in fs if o is not f))
    # 2b: functions whose bodies are equal but for what they hand to the functions that they call
    skeletons = collections.defaultdict(list)
    for f in tree.fns:
        if len(WORD.findall(f.body)) >= 12 and f.name != "main":
            skeletons[shape(f.body, inside=False)].append(f)
    for key, fs in skeletons.items():
        if len({shape(f.body) for f in fs}) > 1 and len(key.split()) >= 12:
            for f in fs:
                yield of_fn("2b", f, "like " + ", ".join(o.item for o in fs if o is not f))
    # 2c: functions whose names differ only in a number
    for f, g in itertools.combinations([f for f in tree.fns if f.body], 2):
        if f.path == g.path and f.name != g.name and re.sub(r"\d+", "", f.name) == re.sub(r"\d+", "", g.name):
            yield of_fn("2c", f, f"and {g.item}")
    # 2d: a function that only hands its parameters to one other function, under a name of its own
    for f in tree.fns:
        m = re.fullmatch(r"\{ ([\w:.]+)\(([^(){}]*(\(\))?[^(){}]*)\) \}", squeezed(f.body)) if f.body else None
        if m and f.params and "fmt" != f.name and m[1] not in ("Ok", "Some", "Err", "write"):
            yield of_fn("2d", f, f"{m[1]}({m[2]})")
    # 2e: a type or constant that stands in two files alike
    alike = collections.defaultdict(list)
    for t in tree.types:
        alike[(t.word, t.name, squeezed(t.body))].append((t.path, t.line, t.name, t.word))
    for path, code in tree.code.items():
        for m in re.finditer(r"(?m)^[ \t]*(?:pub )?const (\w+): [^=]+ = ([\d_]+);", code):
            alike[("const", m[1], m[2].replace("_", ""))].append((path, line_of(code, m.start(1)), m[1], f"const {m[2]}"))
    for found in alike.values():
        if len(found) > 1:
            for path, line, name, text in found:
                yield Place("2e", path, line, name, f"{text}, also in " + ", ".join(p for p, *_ in found if p != path))
    # 2f: the limit of a table written as a number
    yield from in_bodies(tree, "2f", r"\b(256|1024)\b", lambda f: re.match(r"crates/(sheet|programs)/", f.path))


# ---- point 3 ----

def point_3(tree):
    for f in tree.fns:
        for m in re.finditer(r"\b(for|while)\b([^{;]*(?:\{ \.\. \}[^{;]*)?)\{", f.body):
            brace = m.end() - 1
            inside = f.body[brace:closed(f.body, brace)]
            head = squeezed(m[0][:-1])
            line = line_of(tree.src[f.path], f.at + m.start())
            # 3a: a loop that counts an index
            if re.match(r"for \w+ in \d+(u\d+)?\.\.", head):
                yield Place("3a", f.path, line, f.item, head + ("  return inside" if "return" in inside else ""))
            # 3b: a while loop
            elif m[1] == "while":
                yield Place("3b", f.path, line, f.item, head + ("  return inside" if "return" in inside else ""))
            # 3c: a search by hand: a loop over a list whose body answers early with a bool or an Option
            elif re.search(r"return (true|false|Some|None)", inside):
                yield Place("3c", f.path, line, f.item, head + "  return inside")
            # 3d: a loop over a list that only keeps a count, a sum or the highest so far
            elif re.search(r"\+= |if \w+ > \w+", inside):
                yield Place("3d", f.path, line, f.item, head)
    # 3e: an iterator by hand: a `next` that answers an Option outside of `impl Iterator`
    for f in tree.fns:
        if f.name == "next" and f.answer.startswith("Option<") and "Iterator" not in f.item:
            yield of_fn("3e", f)


# ---- point 4 ----

def point_4(tree):
    # 4a: a conversion by a function of its own name
    for f in tree.fns:
        if f.name in ("of", "number", "split", "join", "made_by", "optional", "hex", "nibble") and f.body:
            yield of_fn("4a", f, "(" + ", ".join(t for _, t in f.params) + f") -> {f.answer}")
    # 4b: fields compared one by one, four and more of them
    yield from in_bodies(tree, "4b", r"\w+\.(\w+) == [\w.]+(\s*&&\s*\w+\.\w+ == [\w.]+){3,}")
    # 4c: a type of plain data, which nothing has to drop, that lacks Debug, PartialEq or Eq
    for t in tree.types:
        if "Drop" in t.derives:
            continue
        lacking = [d for d in ("Clone", "Copy", "Debug", "PartialEq", "Eq") if not re.search(rf"\b{d}\b", t.derives)]
        if set(lacking) & {"Debug", "PartialEq", "Eq"}:
            yield Place("4c", t.path, t.line, t.name, "without " + ", ".join(lacking))
    # 4d: From and Display by hand for an error, as thiserror derives them
    for path, code in tree.code.items():
        for m in re.finditer(r"(?m)^impl(?:<[^>]*>)? ((?:From<.*>|fmt::Display) for (\w*(?:Fault|Fail|Refusal|Error|BadBlock|Complaint|Expected)\w*)[^{\n]*)", code):
            yield Place("4d", path, line_of(code, m.start(1)), m[2], m[1].strip())
    # 4e: a record of zeros, or one with two zeros and more that a default gives
    for f in tree.fns:
        hits = [m for m in re.finditer(r"\b[A-Z]\w+ \{[^{}]*\}", f.body) if len(re.findall(r":\s*0\b", m[0])) >= 2]
        if hits:
            names = collections.Counter(m[0].split()[0] for m in hits)
            yield of_fn("4e", f, ", ".join(names))
    for path, code in tree.code.items():
        for m in re.finditer(r"(?m)^(?:pub )?const (\w+): (\w+) = \w+ (\{[^{}]*\})", code):
            if len(re.findall(r":\s*0\b", m[3])) >= 2:
                yield Place("4e", path, line_of(code, m.start(1)), m[1], m[2])
    # 4f: the words for a value by a function of its own
    for f in tree.fns:
        if f.answer == "&'static str":
            yield of_fn("4f", f)
    # 4g: which variant a value is, told by a match of its own that says true or false
    for f in tree.fns:
        if re.search(r"=> true,.*=> false,|=> false,.*=> true,", squeezed(f.body)) and not re.search(r"=> [a-z!(](?!rue|alse)", f.body.replace("=> match", "")):
            yield of_fn("4g", f)


# ---- point 5 ----

def point_5(tree):
    # 5a: parameters, name and type, that stand together in three signatures or more
    # (a trait's function and its impls count once)
    once = {}
    for f in tree.fns:
        once.setdefault((f.name, f.answer, tuple(f.params)), f)
    bags = [(f, frozenset(f.params)) for f in once.values()]
    found = {}
    seeds = {frozenset(p) for _, b in bags for p in itertools.combinations(sorted(b), 2)}
    for seed in seeds:
        having = [(f, b) for f, b in bags if seed <= b]
        if len(having) >= 3:
            whole = frozenset.intersection(*[b for _, b in having])
            found[whole] = [f for f, _ in having]
    for group, fs in sorted(found.items(), key=lambda g: (-len(g[1]), sorted(g[0]))):
        text = ", ".join(f"{n}: {t}" for n, t in sorted(group)) + f"  in {len(fs)}: " + ", ".join(sorted({f.name for f in fs}))
        yield Place("5a", fs[0].path, fs[0].line, fs[0].item, text)
    # 5b: a fact that three functions or more ask for, or promise
    facts = collections.defaultdict(dict)
    for f in tree.fns:
        for word, clause in f.clauses:
            clause = re.sub(r"\b(\w+)\.(now|old|new|entry)\b", lambda m: "self" if m[1] in ("s", "self") else m[1], clause)
            whole = [clause] if re.search(r"→|λ|∀", clause) else clause.split(" × ")
            for fact in whole:
                fact = fact.strip()
                fact = fact[1:-1] if fact.startswith("(") and closed(fact, 0) == len(fact) else fact
                facts[(word, fact)][(f.path, f.item)] = f
    for (word, fact), fs in sorted(facts.items(), key=lambda x: (-len(x[1]), x[0])):
        if len(fs) >= 3:
            fs = list(fs.values())
            yield Place("5b", fs[0].path, fs[0].line, fs[0].item, f"{word} {fact}  in {len(fs)}: " + ", ".join(sorted({f.name for f in fs})))


# ---- point 6 ----

ROW_PARAMETERS = ("k", "n", "scope", "node", "parent", "first", "last", "innermost", "number", "key", "declared", "names", "field", "at")


def point_6(tree):
    count = r"\b(count|length|len|n|limit|left): (u8|u16|u32|u64|usize)"
    for t in tree.types:
        # 6a: a field that is an array or a slice, and a count beside it
        if t.word == "struct" and re.search(r": (&('\w+ )?(mut )?)?\[", t.body) and re.search(count, t.body):
            yield Place("6a", t.path, t.line, t.name, squeezed(t.body)[:110])
        # 6b: a part of another table: its first row and how many rows
        if re.search(r"\bfirst: u32,\s*pub (count|length): ", t.body):
            yield Place("6b", t.path, t.line, t.name, squeezed(t.body)[:110])
        # 6c: a row of another table by its number
        for m in re.finditer(r"\b(parent|first|last|next|merged|begin|child|prev|node|innermost|scope|value|target|typ|identifier|declaration|key|declared|"
                             r"stored|left|right|test|consequent|alternate): (Option<u32>|u32)", t.body):
            yield Place("6c", t.path, t.line, t.name, m[0])
    for f in tree.fns:
        # 6d: an array or slice, and a count or a limit, as two parameters
        lists = [n for n, t in f.params if re.match(r"&(mut )?\[", t)]
        numbers = [n for n, t in f.params if n in ("count", "n", "limit") and re.fullmatch(r"u8|u16|u32|u64|usize", t)]
        if lists and numbers:
            yield of_fn("6d", f, "(" + ", ".join(f"{n}: {t}" for n, t in f.params) + ")")
        # 6e: an array beside the rows, a mark or a level to each of them, where it is made
        for m in re.finditer(r"let mut \w+ = \[(?:false|0); (?!16\b|RECORD|SIZE|512\b)[^\]]+\]", f.body):
            if re.match(r"crates/sheet/", f.path):
                yield of_fn("6e", f, m[0])
        # 6g: a parameter that is the number of a row, as a plain number
        rows = [f"{n}: {t}" for n, t in f.params if n in ROW_PARAMETERS and t in ("u32", "Option<u32>", "&[Option<u32>]")]
        if rows and re.match(r"crates/(screen|rules|sheet|sheetshow)/", f.path):
            yield of_fn("6g", f, ", ".join(rows))
    # 6f: what is lent, as slices one beside the other
    for t in tree.types:
        slices = re.findall(r": &'\w+ mut \[", t.body)
        if t.word == "struct" and len(slices) >= 3:
            yield Place("6f", t.path, t.line, t.name, f"{len(slices)} slices")


# ---- point 7 ----

def point_7(tree):
    # 7a: a match whose arms call three functions or more, by what a value says
    for f in tree.fns:
        for m in re.finditer(r"\bmatch ([^{]+)\{", f.body):
            inside = f.body[m.end() - 1:closed(f.body, m.end() - 1)]
            calls = re.findall(r"=> (?:\{\s*)?([a-z][\w.]*)\(", inside)
            if len(set(calls)) >= 3:
                line = line_of(tree.src[f.path], f.at + m.start())
                yield Place("7a", f.path, line, f.item, f"match {squeezed(m[1])}: " + ", ".join(dict.fromkeys(calls)))
    # 7b: a match on a field that says how far something is
    yield from in_bodies(tree, "7b", r"match(es!\(|\s)&?self\.(part|state|step|phase)\b")
    # 7c: an array of functions
    for path, code in tree.code.items():
        for m in re.finditer(r"\[fn\(|: \[\(?\w+, fn\(", code):
            yield Place("7c", path, line_of(code, m.start()), "", squeezed(code[m.start():m.start() + 60]))


# ---- point 8 ----

def declared(text):
    """The names that a proof file declares at its left edge or in a nameless module, records and their fields left out."""
    names, record = [], None
    for line in text.split("\n"):
        indent = len(line) - len(line.lstrip())
        if record is not None and line.strip() and indent <= record:
            record = None
        if re.match(r"\s*(pub |abbrev |unfoldable )*(record|data) ", line):
            record = indent
        m = re.match(r"( {0,2})(?:(?:pub|abbrev|unfoldable|mutual|opaque) +)*([^\s(){}.;,@]+)(?: \{[^{}]*\})* : ", line)
        if m and record is None and m[2] not in ("use", "module", "|"):
            names.append(m[2])
    return names


def point_8(tree):
    for path, text in tree.proofs.items():
        # 8a: answers to goals. 8b: invariants. 8c: lemmas
        kind = "8a" if path.endswith("/Answers.antt") else "8b" if path.endswith("/Invariants.antt") else "8c"
        names = declared(text)
        if not path.endswith("/Lib.antt"):
            word = {"8a": "answers", "8b": "invariants", "8c": "lemmas"}[kind]
            yield Place(kind, path, 1, path.split("/proofs/")[1].removesuffix(".antt"), f"{len(names)} {word}, {text.count(chr(10))} lines")


# ---- what a rule finds that is no place: rule, item or text, why ----

APART = [
    ("1b", r" show_reads ", "q is how many reads there are, and no kind"),
    ("1c", r" told ", "counted under 1i"),
    ("1d", r" (value_listed|show_dependency) ", "q is how many reads or path entries there are, and no kind"),
    ("1d", r" is_blank ", "every field against zero, counted under 4b"),
    ("1d", r" Memory::new ", "rows of zeros, counted under 4e"),
    ("1e", r"_tests/", "a test writes any bits"),
    ("1f", r"_tests/", "a test names a record by its raw fields"),
    ("1h", r"_tests/.* [a-z]|rules/src/tests.rt", "the input of a test"),
    ("1h", r" (scope_entry|add_entry|terminal_entry|row_listed) ", "an order is below none: a bound of the format, and no row is named"),
    ("1k", r" (Case::read|report|show_lines|Words::goes_on) ", "a yes or no of its own, which can fail"),
    ("1l", r" TextError ", "an error enum: its variants are reasons"),
    ("2a", r" (path_of|reads_put) ", "each is one call, alike by chance"),
    ("2a", r" (repeat_fools_the_list_rule|both_ways_sees_the_repeat) ", "a theorem of a rule: the call is what it is about"),
    ("2b", r" (assemble|read_add) ", "alike by chance"),
    ("2b", r"text_tests/", "a list of a test's cases"),
    ("2b", r" (layer|pile)_keeps_the_law ", "a theorem of each layer"),
    ("2e", r"text_tests/src/forms.rt NONE ", "the input of a test"),
    ("2d", r" From<|Rule for |Alike for ", "a trait's function that hands on to what it is made of"),
    ("2d", r" (u16_at|u32_at) ", "the call is std's, and the function names its bytes"),
    ("2d", r" (same_as_itself|repeat_fools_the_list_rule|both_ways_sees_the_repeat|list_rule_sees_it_turned) ", "a theorem of a rule: the call is what it is about"),
    ("3a", r" Case::read_repeated ", "the number itself is what is written"),
    ("4a", r" Words::number ", "it reads a number, and converts nothing"),
    ("4c", r" Checked ", "a state that is moved: nothing compares or copies it"),
    ("4g", r" mark ", "it marks too, counted under 1j"),
    ("4g", r" is_listed ", "counted under 1m"),
    ("4e", r" list_rule_is_not_symmetric ", "a sample, which shows its fields"),
    ("4e", r" tree_size ", "a place in the tree where some numbers are 0, and no default"),
    ("5a", r"heap: Global", "the heap goes to what allocates, as in std"),
    ("5a", r" (x: DependencyRow, y: DependencyRow|a: &\[DependencyRow\], b: &\[DependencyRow\])  in", "two of one kind, which are compared"),
    ("5a", r" bytes: &\[u8\], place: u64 ", "`Unchecked` is the type of the two, and this is how one is made"),
    ("5b", r"ensures result ≡ true", "each is a theorem of its own"),
    ("6d", r" is_put ", "counted under 6g"),
    ("6g", r"rules/src/tests.rt", "a test names a row by its raw fields"),
    ("7a", r"match (self|node|entry|put):", "a value is taken apart by its variants, and each arm needs its fields"),
]


def main():
    commit = sys.argv[1] if len(sys.argv) > 1 else None
    tree = Tree(commit)
    for number, name in POINTS.items():
        places, apart = [], []
        for p in dict.fromkeys(globals()[f"point_{number}"](tree)):
            why = next((w for rule, found, w in APART if rule == p.rule and re.search(found, f"{p.path} {p.item} {p.text}")), None)
            (apart if why else places).append((p, why))
        for p, _ in sorted(places):
            print(f"{p.rule} {p.path}:{p.line} ({p.item})  {p.text}")
        for p, why in sorted(apart):
            print(f"apart {p.rule} {p.path}:{p.line} ({p.item})  {why}")
        by = lambda key: ", ".join(f"{k} {n}" for k, n in sorted(collections.Counter(key(p) for p, _ in places).items()))
        print(f"point {number}: {len(places)} places: {name}. By rule: {by(lambda p: p.rule)}. By crate: {by(lambda p: p.path.split('/')[1])}. Apart: {len(apart)}\n")


if __name__ == "__main__":
    main()
