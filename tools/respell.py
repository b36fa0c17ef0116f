#!/usr/bin/env python3
"""Brings a repository's own names in crates/*/specs and crates/*/proofs to the spelling of this Rattle, and what cites them
(other proof files, clauses, ghost items and 'ghost use' lines of src/*.rt, and the texts of must-fail/*.edit and .ci/misuses/*.edit) along.

usage: respell.py [--dry] [--pages] [--with FILE] [--leave NAME,NAME..]       at the top of the repository, after port.py, everything committed

A name in lower case, that of a value, function, lemma, field, constructor or local variable, gets snake case: faultIn -> fault_in, weighed-push -> weighed_push.
A name with a capital, that of a type or record, gets camel case: Merged-lawfully -> MergedLawfully. A prime is '.
A definition that is a fact or a type (its own type ends in Type) gets camel case even where it began small: recordsListed -> RecordsListed.
One spelling goes to one spelling, in all crates. It writes the table (old, new, what it is, where) to stdout.
A lemma that would get a definition's name gets _lem behind it, as std's lemmas do. Other names that would fall together stay where a file has both, on a line 'left:';
where no file has both they are turned, on a line 'look:'. An edit is turned only where its text stands no more.
--dry writes nothing. --pages turns code spans of README.md and docs/*.md too, but for words that stand in a string of src. --with FILE has rows old, tab, new, that go before the rule
(tools/names.tsv, with a line of why above each). --leave: these stay.
A fact that bears the name of a field, as within, is turned only if FILE names it, and then only where it is applied or imported: the field keeps its name.
Never touched: names that Rattle makes (behind c. l. w. g. t. b. goal. given., declared at goal.x, imported from .Goals or .Given), the source's own names, strings, prose, std's names.
"""
import os, re, subprocess, sys, collections

WORD = r'[^\s(){}.;,@"«»]+'
ANSWERS = re.compile(r"/proofs/(.*/)?(Answers|Invariants|Proof)(/.*)?\.antt$")
DECL = re.compile(rf"^( *)((?:(?:pub|abbrev|unfoldable|mutual|opaque|axiom) +)*)({WORD})((?: +\{{[^{{}}\n]*\}})*) :(?= |$)")
HEAD = re.compile(rf"^( *)((?:(?:pub|abbrev|unfoldable|mutual) +)*)(record|data) +({WORD})")
USE = re.compile(r"(?m)^( *)(pub +)?use +([^\s{]+?)(?:\.\{([^}]*)\})?(?: as (\S+))?[ ]*$")
QUIET = re.compile(r'"(?:[^"\\\n]|\\.)*"|(?<![^\s(){}.;,@"«»])--[^\n]*|\{-.*?-\}', re.S)
TOKEN = re.compile(rf'(?P<quiet>"(?:[^"\\\n]|\\.)*"|(?<![^\s(){{}}.;,@"«»])--[^\n]*|\{{-.*?-\}})|(?P<word>{WORD})|(?P<other>.)', re.S)
LOCAL = re.compile(rf"\blet +({WORD})(?= *[:=])|[({{]((?:{WORD} )+): |λ ((?:{WORD} )*{WORD})\.(?= )")
CLAUSE = re.compile(r"\b(?:requires|ensures)\b\s*\*?\s*(?:\w+\s*)?\{|\bghost\s+(?!use\b)[^{};]*\{")
GHOST_USE = re.compile(r"ghost\s+use\b[^;]*;", re.S)
MADE = re.compile(r"^(c|l|w|g|t|goal|given|b)\d*'*$")   # heads behind which Rattle's own names stand
MADE_FIRST = re.compile(r"^(loop|if|then|else|in|match|after|returns|overflow|bounds|for|while)[-_]")


def renamed(old):
    """The new spelling by the rule alone."""
    n = old.replace("′", "'")
    if n.startswith("◌") or "◌" in n or not re.search(r"[A-Za-z]", n):
        return old
    first = re.search(r"[A-Za-z]", n)[0]
    if first.isupper():
        if "-" not in n and "_" not in n:
            return n
        return "".join(p[:1].upper() + p[1:] for p in re.split(r"[-_]", n) if p)
    n = re.sub(r"(?<=[a-z0-9'])([A-Z]+)(?=[A-Z][a-z])", lambda m: "_" + m[1].lower(), n)
    n = re.sub(r"(?<=[a-z0-9'])([A-Z]+)", lambda m: "_" + m[1].lower(), n)
    n = n.replace("-", "_")
    return re.sub(r"_+", "_", n)


def crate_of(path):
    return re.search(r"crates/([^/]+)/", path)[1]


def module_of(path):
    m = re.search(r"crates/([^/]+)/(specs|proofs)/(.*)\.antt$", path)
    return "Rattle." + m[1] + "." + m[2] + "." + m[3].replace("/", ".")


def is_own(path, crates):
    steps = path.split(".")
    return steps[0] == "package" or (steps[0] == "Rattle" and len(steps) > 1 and steps[1] in crates)


def is_made(path):
    return re.search(r"\.(Goals|Given|contracts|declared|TheVariants)(\.|$)", path) is not None


def std_names(kit):
    """What std's Prelude (for clauses) and Common (for proofs) pass on, and what they declare."""
    out = {}
    for label, p in (("Prelude", "specs/Prelude.antt"), ("Common", "proofs/Common.antt")):
        try:
            text = open(os.path.join(kit, "rattle/std", p), encoding="utf-8").read()
        except OSError:
            continue
        for m in re.finditer(r"(?m)^pub use [^{\n]*\{([^}]*)\}", text):
            for it in m[1].split(","):
                out.setdefault(it.split(" as ")[-1].strip(), label)
    return out


class Repo:
    def __init__(self, top):
        self.top = top
        self.crates = sorted(c for c in os.listdir(os.path.join(top, "crates")) if os.path.isdir(os.path.join(top, "crates", c, "src")))
        self.antt, self.rt, self.edits = {}, {}, {}
        for c in self.crates:
            for folder, dirs, files in os.walk(os.path.join(top, "crates", c)):
                dirs[:] = [d for d in dirs if d != "out"]
                for f in sorted(files):
                    p = os.path.relpath(os.path.join(folder, f), top)
                    if f.endswith(".antt"):
                        self.antt[p] = open(os.path.join(top, p), encoding="utf-8").read()
                    elif f.endswith(".rt"):
                        self.rt[p] = open(os.path.join(top, p), encoding="utf-8").read()
                    elif f.endswith(".edit"):
                        self.edits[p] = open(os.path.join(top, p), encoding="utf-8").read()
        folder = os.path.join(top, ".ci/misuses")
        if os.path.isdir(folder):
            for f in sorted(os.listdir(folder)):
                if f.endswith(".edit"):
                    self.edits[".ci/misuses/" + f] = open(os.path.join(folder, f), encoding="utf-8").read()
        self.kinds = collections.defaultdict(set)      # name -> kinds
        self.places = collections.defaultdict(list)    # name -> places
        self.in_file = collections.defaultdict(set)    # path -> names declared in it (not locals)
        self.locals = collections.defaultdict(set)     # path -> local names
        self.fields = set()
        self.foreign = collections.defaultdict(set)    # path -> names that it imports from elsewhere than own modules, or of Goals
        self.imports = collections.defaultdict(dict)   # path -> imported name -> module
        self.aliases = collections.defaultdict(dict)
        self.typed = set()
        self.declared = collections.defaultdict(set)   # path -> names of definitions in it
        for p, text in self.antt.items():
            self.read(p, text)
        self.rust = collections.defaultdict(set)       # crate -> identifiers of the source, outside clauses
        self.rust_what = collections.defaultdict(set)
        for p, text in self.rt.items():
            self.read_rust(p, text)

    def read(self, p, text):
        bare = QUIET.sub(lambda m: re.sub(r"[^\n]", " ", m[0]), text)
        for m in USE.finditer(bare):
            path, items, alias = m[3], m[4], m[5]
            own = is_own(path, self.crates) and not is_made(path)
            if alias and items is None:
                self.aliases[p][alias] = path
                if not own:
                    self.foreign[p].add(alias)
            if items is None and not alias:
                self.aliases[p][path.split(".")[-1]] = path
            for it in (items or "").split(","):
                it = it.strip()
                if not it:
                    continue
                name = it.split(" as ")[-1].strip()
                self.imports[p][name] = path
                if not own:
                    self.foreign[p].add(name)
        holder, depth = None, -1
        for i, line in enumerate(bare.split("\n")):
            if not line.strip() or re.match(r" *(pub +)?use ", line):
                continue
            indent = len(line) - len(line.lstrip())
            h = HEAD.match(line)
            if h:
                self.add(p, i, h[4], h[3])
                holder, depth = h[3], indent
                continue
            if holder and indent <= depth:
                holder = None
            d = DECL.match(line)
            if not d or d[3] in ("let", "where", "module", "|", "in"):
                continue
            if re.match(r" *goal\.", line[d.end():]) or re.match(r" *\w+\.(invariant|decreases|loop|returns)[-\w]*", line[d.end():]):
                self.foreign[p].add(d[3])      # an answer: the name is Rattle's
                continue
            kind = {"record": "field", "data": "constructor"}.get(holder) or ("definition" if re.search("abbrev|unfoldable", d[2]) else "lemma")
            if ANSWERS.search("/" + p) and kind == "lemma":
                kind = "lemma of a function's file"
            self.add(p, i, d[3], kind)
            if kind == "field":
                self.fields.add(d[3])
            if kind == "definition":
                self.declared[p].add(d[3])
            if re.search(r"Type _?\d*\s*$", line) and d[3][:1].islower() and kind == "definition":
                self.typed.add((d[3], p))
        for m in LOCAL.finditer(bare):
            for n in (m[1] or m[2] or m[3] or "").split():
                self.locals[p].add(n)

    def add(self, p, i, name, kind):
        self.kinds[name].add(kind)
        self.places[name].append(f"{p}:{i + 1}")
        self.in_file[p].add(name)

    def read_rust(self, p, text):
        bare = re.sub(r'//[^\n]*|"(?:\\.|[^"\\])*"', " ", text)
        for region in regions(bare)[::-1]:
            bare = bare[: region[0]] + " " + bare[region[1] :]
        for m in re.finditer(r"\b[A-Za-z_]\w*", bare):
            self.rust[p].add(m[0])
        for m in re.finditer(r"\b(fn|mod|const|struct|enum|trait|let(?: mut)?) +([A-Za-z_]\w*)|\b([a-z_]\w*) *:(?!:)", bare):
            self.rust_what[p].add((m[2] or m[3], (m[1] or "parameter or field").split()[0]))


def regions(text):
    """The clauses, ghost blocks and 'ghost use' items of a source text: (begin, end), in order."""
    out = []
    for m in GHOST_USE.finditer(text):
        out.append((m.start(), m.end()))
    at = 0
    while True:
        m = CLAUSE.search(text, at)
        if not m:
            break
        depth, k = 1, m.end()
        while k < len(text) and depth:
            depth += {"{": 1, "}": -1}.get(text[k], 0)
            k += 1
        inside = text[m.end() : k]
        out.append((m.end(), k))
        at = k
    out.sort()
    return [r for i, r in enumerate(out) if not any(q[0] <= r[0] and r[1] <= q[1] and q != r for q in out)]


class Turner:
    def __init__(self, repo, table, facts):
        self.repo, self.table, self.facts = repo, table, facts
        self.look = []

    def fact(self, t, text, m, path):
        """The new name of a fact that bears a field's name, where t is that fact: declared, or applied in a file that declares or imports it."""
        if t not in self.facts or not (t in self.repo.imports[path] or t in self.repo.declared[path]):
            return None
        here = re.search(r"abbrev +(pub +)?$", text[: m.start()]) is not None
        return self.facts[t] if here or not re.match(r" *[:=](?= |$)| *[;})]", text[m.end() :]) else None

    def words(self, text, skip, aliases, path, made_heads=True):
        """text as antt code, its words turned but those of skip."""
        out, prev_dot, chain, last = [], False, [], None
        use_line = None
        for m in TOKEN.finditer(text):
            t = m[0]
            if m["quiet"] is not None:
                out.append(t)
                chain, prev_dot = [], False
                continue
            if m["word"] is None:
                if t == ".":
                    prev_dot = bool(chain) and last == m.start()
                    out.append(t)
                    last = m.end()
                    continue
                if t == ")" :
                    out.append(t)
                    chain, last, prev_dot = [")"], m.end(), False
                    continue
                if t in "{" and prev_dot and last == m.start():
                    # items of a use: each its own
                    out.append(t)
                    chain, prev_dot = [], False
                    continue
                out.append(t)
                chain, prev_dot = [], False
                continue
            if prev_dot and last == m.start():
                new = self.behind(t, chain, skip, aliases, path)
                chain = chain + [t]
            else:
                new = self.fact(t, text, m, path) or (t if t in skip else self.table.get(t, t))
                chain = [t]
            prev_dot, last = False, m.end()
            out.append(new)
        return "".join(out)

    def behind(self, t, chain, skip, aliases, path):
        new = self.table.get(t)
        if new is None:
            return t
        head = chain[0]
        if head in ("Rattle", "package"):
            return t if is_made(".".join(chain + [t])) or t in skip and not is_own(".".join(chain), self.repo.crates) else new
        if head in aliases:
            q = aliases[head]
            return new if is_own(q, self.repo.crates) and not is_made(q) else t
        if MADE.match(head) and len(chain) == 1 and ANSWERS.search("/" + path):
            if t in self.repo.fields:
                self.look.append(f"look: {path}: {'.'.join(chain + [t])} stays: behind {head}. stands a name that Rattle makes")
            return t
        if head[:1].isupper() or t in self.repo.fields:
            if t in self.repo.fields and MADE.match(head) and len(chain) > 1 and re.search(r"-(is|end|bits|fits|index|item)$", t) and MADE_FIRST.match(chain[1]):
                self.look.append(f"look: {path}: {'.'.join(chain + [t])} turned to {new}, as one of your fields is spelled so; it may be Rattle's own")
            return new
        return t

    def antt(self, p):
        text = self.repo.antt[p]
        skip = set(self.repo.foreign[p])
        aliases = self.repo.aliases[p]
        out, at = [], 0
        quiet = [(m.start(), m.end()) for m in QUIET.finditer(text)]
        for m in USE.finditer(text):
            if any(a <= m.start() < b for a, b in quiet):
                continue
            out.append(self.words(text[at : m.start()], skip, aliases, p))
            out.append(self.use(m[0], m[3]))
            at = m.end()
        out.append(self.words(text[at:], skip, aliases, p))
        return "".join(out)

    def use(self, line, path):
        if is_made(path) or not is_own(path, self.repo.crates):
            return line
        head, brace, items = line.partition("{")
        if not brace:
            return line if path.split(".")[-1][:1].isupper() else self.words(line, set(), {}, "")
        return head + brace + re.sub(WORD, lambda m: self.facts.get(m[0]) or self.table.get(m[0], m[0]), items)

    def rt(self, p, text=None):
        text = self.repo.rt[p] if text is None else text
        out, at = [], 0
        foreign = set()
        for m in GHOST_USE.finditer(text):
            for u in re.finditer(r"use\s+([\w.]+?)(?:\.\{([^}]*)\})?\s*(?:as\s+\S+\s*)?;", m[0]):
                if not is_own(u[1], self.repo.crates) or is_made(u[1]):
                    foreign |= {i.split(" as ")[-1].strip() for i in (u[2] or "").split(",")}
        for a, b in regions(text):
            out.append(text[at:a])
            part = text[a:b]
            if part.startswith("ghost") and GHOST_USE.fullmatch(part):
                u = re.search(r"use\s+([\w.]+?)(?:\.\{|\s*;|\s+as\b)", part)
                own = u and is_own(u[1], self.repo.crates) and not is_made(u[1])
                out.append(self.use(part, u[1]) if own else part)
            else:
                # a comment in a clause begins with //
                bits = re.split(r"(//[^\n]*)", part)
                out += [x if i % 2 else self.words(x, foreign, {}, p) for i, x in enumerate(bits)]
            at = b
        out.append(text[at:])
        return "".join(out)


def main(argv):
    dry = "--dry" in argv
    given, leave = {}, set()
    if "--with" in argv:
        for l in open(argv[argv.index("--with") + 1], encoding="utf-8"):
            if "\t" in l and not l.startswith("#"):
                a, b = l.rstrip("\n").split("\t")[:2]
                given[a] = b
    if "--leave" in argv:
        leave = set(argv[argv.index("--leave") + 1].split(","))
    top = os.getcwd()
    if not os.path.isdir(os.path.join(top, "crates")):
        print("respell: run it at the top of a repository"); return 2
    repo = Repo(top)
    kit = os.path.dirname(subprocess.run(["rt", "doc"], capture_output=True, text=True).stdout.strip())
    std = std_names(kit)
    table = {}
    left, look = [], []
    for name in sorted(repo.kinds):
        if name in leave:
            continue
        new = given.get(name, renamed(name))
        if new != name:
            table[name] = new
    facts = {n: given[n] for n, p in repo.typed if n in given and n in repo.fields}
    for n in facts:
        table.pop(n, None)
        print(f"{n}\t{facts[n]}\tfact, where it is applied\t{next(p for m, p in repo.typed if m == n)}")
    # locals that need it, in their files
    for p, names in repo.locals.items():
        for n in names:
            if n in repo.foreign[p] or n in leave or n in table or n in facts:
                continue
            new = given.get(n, renamed(n))
            if new != n and re.search(r"[A-Za-z]", n) and n[0].islower():
                repo.kinds[n].add("local")
                repo.places[n].append(p)
                table[n] = new
    # what falls together: where one is a definition and one a lemma, the lemma gets _lem, as std's do
    for n, p in repo.typed:
        if n in table and n not in given:
            table[n] = table[n][:1].upper() + re.sub(r"_(\w)", lambda m: m[1].upper(), table[n])[1:]
    back = collections.defaultdict(set)
    for old, new in table.items():
        back[new].add(old)
    lemma = {"lemma", "lemma of a function's file", "local"}
    for new, olds in sorted(back.items()):
        all_of = set(olds) | ({new} if new in repo.kinds and new not in table else set())
        if len(all_of) < 2:
            continue
        lems = [o for o in all_of if repo.kinds[o] <= lemma and repo.kinds[o] != {"local"}]
        defs = [o for o in all_of if not repo.kinds[o] <= lemma]
        if len(lems) == 1 and len(defs) == 1 and new + "_lem" not in repo.kinds and new + "_lem" not in back:
            table[lems[0]] = new + "_lem"
            look.append(f"look: {lems[0]} -> {new}_lem: {defs[0]} is {new}")
            continue
        files = [p for p in repo.antt if len([o for o in all_of if o in repo.in_file[p] or o in repo.imports[p] or o in repo.locals[p]]) > 1]
        if files:
            for o in sorted(olds):
                left.append(f"left: {o} stays: {', '.join(sorted(all_of))} would all be {new} ({files[0]})")
                table.pop(o, None)
        else:
            look.append(f"look: {', '.join(sorted(all_of))} are all {new} now, in files that do not meet")
    for old, new in sorted(table.items()):
        shadow = [p for p in repo.antt if re.search(rf"(?<![^\s(){{}};,@«»]){re.escape(old)}(?![^\s(){{}}.;,@«»])", repo.antt[p]) and new in repo.locals[p]]
        if shadow and repo.kinds[old] != {"local"}:
            left.append(f"left: {old} stays: a variable is called {new} in {shadow[0]}")
            table.pop(old)
            continue
        clash = [p for p in repo.antt if new in repo.foreign[p] and (old in repo.in_file[p] or old in repo.imports[p] or old in repo.locals[p])]
        if clash:
            left.append(f"left: {old} stays: {clash[0]} imports another {new}, from {repo.imports[clash[0]].get(new)}")
            table.pop(old)
            continue
        if new in std:
            look.append(f"look: {old} -> {new}: std's {std[new]} has a {new} too")
        for p in sorted(repo.rt):
            what = sorted({w for n, w in repo.rust_what[p] if n == new})
            if what:
                cites = re.search(rf"(?<![\w.-]){re.escape(old)}(?![\w-])", " ".join(repo.rt[p][a:b] for a, b in regions(repo.rt[p])))
                if cites and set(what) & {"parameter", "let", "struct", "enum", "trait", "mod", "const"} or (cites and "fn" in what):
                    look.append(f"look: {old} -> {new}: {p} has a {', '.join(what)} of that name, and its clauses cite {old}")
                elif crate_of(p) in {crate_of(x) for x in repo.places[old] if x.startswith("crates/")} and "fn" in what:
                    look.append(f"look: {old} -> {new}: {p} has a {', '.join(what)} of that name")
    # names that differ only in case, in one module, or from a module beside it
    for p in sorted(repo.antt):
        low = collections.defaultdict(set)
        for n in repo.in_file[p]:
            low[table.get(n, n).lower()].add(table.get(n, n))
        for s in low.values():
            if len(s) > 1:
                look.append(f"look: {p}: {' and '.join(sorted(s))} differ only in case")
        base = os.path.splitext(os.path.basename(p))[0]
        for n in repo.in_file[p]:
            if n in table and table[n].lower() == base.lower() and table[n] != base:
                look.append(f"look: {p}: {n} -> {table[n]} differs only in case from its module {base}")
    for p in sorted(repo.antt):
        if not ANSWERS.search("/" + p):
            base = os.path.splitext(os.path.basename(p))[0]
            if not re.fullmatch(r"[A-Z][A-Za-z0-9]*", base):
                look.append(f"look: the module {p} is not in camel case")
    for n, p in sorted(repo.typed):
        if n not in facts and table.get(n, n)[:1].islower():
            look.append(f"look: {p}: {n} is a type and has a small letter")
    turner = Turner(repo, table, facts)
    changed = {}
    for p in repo.antt:
        new = turner.antt(p)
        if new != repo.antt[p]:
            changed[p] = new
    for p in repo.rt:
        new = turner.rt(p)
        if new != repo.rt[p]:
            changed[p] = new
    # edits: a text that stands no more follows
    for p, text in repo.edits.items():
        crate = crate_of(p) if p.startswith("crates/") else None
        lines, file = [], None
        if crate is None:
            m = re.search(r"(?m)^crate: (.*)$", text)
            crate = m[1].strip() if m else ""
        f = re.search(r"(?m)^file: (.*)$", text)
        it = f"crates/{crate}/{f[1].strip()}" if f else ""
        was = repo.rt.get(it, repo.antt.get(it))
        if was is None:
            look.append(f"look: {p}: no file {it}")
            continue
        now = changed.get(it, was)
        skip = repo.foreign.get(it, set()) if it.endswith(".antt") else set()
        for l in text.split("\n"):
            m = re.match(r"(old|new): (.*)$", l)
            if m and (it.endswith(".antt") or now.count(m[2]) != was.count(m[2]) or m[1] == "new" and lines and lines[-1][1]):
                lines.append((m[1] + ": " + turner.words(m[2], skip, {}, it), True))
            else:
                lines.append((l, False))
        new = "\n".join(x for x, _ in lines)
        if new != text:
            changed[p] = new
    for old in sorted(table):
        kinds = "/".join(sorted(repo.kinds[old]))
        print(f"{old}\t{table[old]}\t{kinds}\t{repo.places[old][0]}" + (f" and {len(repo.places[old]) - 1} more" if len(repo.places[old]) > 1 else ""))
    for l in left + look + sorted(set(turner.look)):
        print(l)
    if not dry:
        for p, new in changed.items():
            with open(os.path.join(top, p), "w", encoding="utf-8") as f:
                f.write(new)
    print(f"respell: {len(table)} names, {len(left)} left, {len(look)} to look at; {len(changed)} files {'would change' if dry else 'changed'}; now rt fmt in each crate's folder")
    # pages that cite an old name, also one that port.py turned
    texts = " ".join(m[0] for t in repo.rt.values() for m in re.finditer(r'"(?:\\.|[^"\\])*"', t))
    spoken = set(re.findall(r"[\w-]+", texts))
    declared = set(table.values()) | (set(repo.kinds) - set(table))
    hits = collections.Counter()

    def span(m, where):
        def one(w):
            old = w[0]
            new = table.get(old) or renamed(old)
            if new == old or new not in declared or not ("-" in old or re.search("[a-z][A-Z]", old)):
                return old
            if old in spoken:
                hits[f"{where}: {old} stays, a string of src has it"] += 1
                return old
            hits[f"{where}: {old} -> {new}"] += 1
            return new
        return re.sub(r"(?<![\w/-])[\w-]+(?![\w-]*/)", one, m[0])

    for folder in ("", "docs"):
        at = os.path.join(top, folder)
        for f in sorted(os.listdir(at)) if os.path.isdir(at) else ():
            if f.endswith(".md"):
                p = os.path.join(at, f)
                t = open(p, encoding="utf-8").read()
                new = re.sub(r"`[^`\n]+`", lambda m: span(m, os.path.join(folder, f)), t)
                if new != t and "--pages" in argv and not dry:
                    open(p, "w", encoding="utf-8").write(new)
    for h, n in sorted(hits.items()):
        print(f"page: {h}" + (f" ({n} times)" if n > 1 else ""))
    return 0


if __name__ == "__main__":
    raise SystemExit(main(sys.argv[1:]))
