# The changes that tools/mutants tries: for a file of src/ or specs/, every place that it can change and what it can write there. What is
# told from the text alone keeps a change well-formed: a name gives way only to one of the same type, as far as the files say the types.
import re
from collections import namedtuple

# a kind of change, and the spans of the text that it writes anew: [(start, end, new), ..]
Change = namedtuple("Change", "kind edits")

RT_OPERATORS = {
    "<": ["<=", ">"], "<=": ["<", "=="], ">": [">=", "<"], ">=": [">", "=="], "==": ["!=", "<="], "!=": ["==", "<"],
    "+": ["-"], "-": ["+"], "*": ["+"], "/": ["%"], "%": ["/"], "&&": ["||"], "||": ["&&"], "+=": ["-="], "-=": ["+="],
    "true": ["false"], "false": ["true"],
}
ANTT_OPERATORS = {
    "ltb": ["leb", "eqb"], "leb": ["ltb", "eqb"], "eqb": ["ltb", "leb"], "true": ["false"], "false": ["true"],
    "+": ["-"], "-": ["+"], "*": ["+"], "/": ["%"], "%": ["/"], "&&": ["||"], "||": ["&&"], "<": ["≤"], "≤": ["<"],
}
# what the kit says of functions that the definitions use much
KIT = {"cond": ["Bool", "A", "A", "A"], "take": ["ℕ", "List", "List"], "drop": ["ℕ", "List", "List"]}
NUMBER = r"(?<![\w·«])(0x[0-9A-Fa-f]+|\d+)(?!\w)"


def blank(text, start, end, mark=" "):
    return text[:start] + re.sub(r"[^\n]", mark, text[start:end]) + text[end:]


def blank_all(text, pattern, mark=" "):
    for m in re.finditer(pattern, text, re.M):
        text = blank(text, *m.span(), mark)
    return text


# where the bracket that opens at `at` closes, one past it
def closing(text, at):
    depth = 0
    for i in range(at, len(text)):
        depth += (text[i] in "([{") - (text[i] in ")]}")
        if depth == 0:
            return i + 1
    return len(text)


# the pieces of text[start:end] between `mark`s outside brackets, as spans without the blanks around them
def pieces(text, start, end, mark):
    cuts, depth = [start], 0
    for i in range(start, end):
        depth += (text[i] in "([{") - (text[i] in ")]}")
        if depth == 0 and re.compile(mark).match(text, i):
            cuts += [i, i + 1]
    cuts.append(end)
    spans = []
    for a, z in zip(cuts[::2], cuts[1::2]):
        piece = text[a:z]
        a, z = a + len(piece) - len(piece.lstrip()), a + len(piece.rstrip())
        if a < z:
            spans.append((a, z))
    return spans


# ---- what the files say of types: functions, fields and constructors, by name ----

class Names:
    def __init__(self, crates):
        self.functions = dict(KIT)
        self.fields = []
        self.variants = {}
        for path in sorted(crates.glob("*/src/**/*.rt")):
            self.read_rt(blank_all(path.read_text(encoding="utf-8"), r"//.*"))
        for path in sorted(crates.glob("*/specs/**/*.antt")):
            self.read_antt(blank_all(path.read_text(encoding="utf-8"), r"--.*"))

    def read_rt(self, text):
        for m in re.finditer(r"\bfn (\w+)(?:<[^>]*>)?\(([^)]*)\)(?: -> ([^\n{]+))?", text):
            types = re.findall(r":\s*([^,]+)", m.group(2))
            self.functions[m.group(1)] = [t.strip() for t in types] + [(m.group(3) or "").strip()]
        for m in re.finditer(r"\b(struct|enum) (\w+) \{", text):
            body = text[m.end():closing(text, m.end() - 1) - 1]
            if m.group(1) == "struct":
                self.fields.append(dict(re.findall(r"(\w+): ([^,\n]+)", body)))
            for v in re.finditer(r"^\s*([A-Z]\w*)(?:\(([^)]*)\))?", body, re.M):
                self.variants.setdefault(v.group(1), []).append((m.group(2), (v.group(2) or "").split(", ")))

    def read_antt(self, text):
        for m in re.finditer(r"^(?:(?:abbrev|unfoldable|pub) )*([a-z]\S*) : (.+(?:\n +.+)*)", text, re.M):
            self.functions[m.group(1)] = [re.sub(r"\s+", " ", text[a:z]).strip("> ") for a, z in pieces(text, *m.span(2), "→")]
        for m in re.finditer(r"^(?:pub )?record .*where\n((?: +.*\n)+)", text, re.M):
            self.fields.append({f.strip("«»"): t for f, t in re.findall(r"^ +(?:pub )?(\S+) : (.+)$", m.group(1), re.M)})

    def fields_alike(self, a, b):
        a, b = a.strip("«»"), b.strip("«»")
        return a != b and any(a in r and b in r and r[a] == r[b] for r in self.fields)

    # with the path or prefix before it, which has to be the same
    def variants_alike(self, a, b):
        (way, a), (other, b) = (re.fullmatch(r"(.*?)(\w+)", t).groups() for t in (a, b))
        mine = [] if a in self.functions else self.variants.get(a, [])
        return way == other and a != b and any(v in mine for v in self.variants.get(b, []))

    def functions_alike(self, a, b):
        return a != b and a in self.functions and self.functions[a] == self.functions.get(b)

    # of the arguments of a call, or of what a constructor holds, which neighbours can change places
    def swaps(self, name, count):
        types = self.functions.get(name) or (self.variants.get(name) or [("", None)])[0][1]
        return [i for i in range(count - 1) if types is None or (i + 1 < len(types) and types[i] == types[i + 1])]


# ---- changes that both kinds of file have ----

def operators(text, table, has):
    words = r"(?<![\w.·«'-])(ltb|leb|eqb|true|false)(?![\w'-])|(?<= )(<=|>=|==|!=|&&|\|\||\+=|-=|[<>≤+*/%-])(?= )"
    for m in re.finditer(words, text):
        for new in table.get(m.group(), []):
            if has(new):
                yield Change("operator", [(*m.span(), new)])


def numbers(text, skip):
    found = [m for m in re.finditer(NUMBER, text) if not re.match(skip, text[max(0, m.start() - 2):m.end() + 3])]
    texts = sorted({m.group() for m in found})
    for m in found:
        old = m.group()
        n = int(old, 0)
        near = [v for v in (n - 1, n + 1) if v >= 0]
        new = [f"0x{v:0{len(old) - 2}X}" if old.startswith("0x") else str(v) for v in near]
        for kind, news in (("number", new), ("other number", [t for t in texts if int(t, 0) != n])):
            for t in news:
                yield Change(kind, [(*m.span(), t)])


def swapped(kind, source, a, b):
    if source[slice(*a)] != source[slice(*b)]:
        yield Change(kind, [(*a, source[slice(*b)]), (*b, source[slice(*a)])])


def renamed(kind, found, others, alike):
    for span, old in found:
        for new in sorted(set(others)):
            if alike(old, new):
                yield Change(kind, [(*span, new)])


# ---- src/*.rt ----

# no comment, text, import, promise or declared type
def rt_code(text):
    text = blank_all(text, r"b?\"[^\"\n]*\"|b'.'", '"')
    text = blank_all(text, r"//.*|#\[.*\]")
    text = blank_all(text, r"^\s*(?:pub(?:\(\w+\))? )?(?:ghost use|use|mod) .*;$")
    for m in re.finditer(r"\b(?:requires|ensures|ghost) \{", text):
        text = blank(text, m.start(), closing(text, m.end() - 1))
    for m in re.finditer(r"\b(?:struct|enum) \w+(?:<[^>]*>)?(?: \{)", text):
        text = blank(text, m.start(), closing(text, m.end() - 1))
    text = blank_all(text, r"\bstruct .*;$")
    return blank_all(text, r"(?<=\w)(?:: [^=\n]+)(?= = )")


def rt_changes(source, names):
    whole = rt_code(source)
    text = blank_all(whole, r"\bfn \w+[^{]*(?=\{)")
    yield from operators(text, RT_OPERATORS, lambda new: True)
    yield from numbers(text, r".*[\w)\]]\.\d+.{0,3}$")
    for m in re.finditer(r"(?:\bin |\[)([^\[\]{}\n]*?)\.\.([^\[\]{}\n]*?)(?= \{|\])", text):
        for g, more in ((1, " + 1"), (2, " - 1")):
            if m.group(g):
                yield Change("bound", [(*m.span(g), m.group(g) + more)])
    yield from rt_order(source, text, names)
    # names: not those that a pattern binds or asks for
    used = blank_all(text, r"^.* =>|\blet .*? =(?!=)|\bfor \w+ in")
    found = [(m.span(), m.group()) for m in re.finditer(r"\.[a-z_]\w*\b(?!\()", used)]
    yield from renamed("field", found, [t for _, t in found], lambda a, b: names.fields_alike(a[1:], b[1:]))
    found = [(m.span(), m.group()) for m in re.finditer(r"\b[A-Z]\w*::[A-Z]\w*", used)]
    yield from renamed("constructor", found, [t for _, t in found], names.variants_alike)
    found = [(m.span(), m.group()) for m in re.finditer(r"(?<![\w.:])(?:[a-z]\w*::)*[a-z_]\w*(?=\()", used)]
    there = [t for _, t in found] + re.findall(r"\bfn (\w+)", whole)
    yield from renamed("function", found, there, lambda a, b: names.functions_alike(a.split("::")[-1], b.split("::")[-1]))
    yield from rt_locals(whole, used, names)


# arms, returns and rows that stand next to each other, and arguments
def rt_order(source, text, names):
    for m in re.finditer(r"^( *)\S.* => (.+),\n(?=\1\S.* => (.+),$)", text, re.M):
        yield from swapped("arms", source, m.span(2), m.span(3))
    one = r"if .+ \{{\n\{0}    return .+;\n\{0}\}}"
    for m in re.finditer(rf"^( *)({one.format(1)})\n(?=\1({one.format(1)})\n)", text, re.M):
        yield from swapped("rules", source, m.span(2), m.span(3))
    for m in re.finditer(r"^( *)(\[.*\]),\n(?=\1(\[.*\]),$)", text, re.M):
        yield from swapped("rows", source, m.span(2), m.span(3))
    for m in re.finditer(r"(?<![.\w])(?:\w+::)*([A-Za-z_]\w*)\(", text):
        args = pieces(text, m.end(), closing(text, m.end() - 1) - 1, ",")
        for i in names.swaps(m.group(1), len(args)):
            yield from swapped("arguments", source, args[i], args[i + 1])


# a local for another of the same function that stands before it, not of another type where both say theirs
def rt_locals(whole, used, names):
    for head in re.finditer(r"\bfn \w+[^{]*(?=\{)", whole):
        end = closing(whole, head.end())
        bound = {n: (head.end(), t.strip()) for n, t in re.findall(r"(\w+): ([^,)]+)", head.group())}
        for m in re.finditer(r"\blet (?:mut )?(\w+)\s+=(?: (?:\w+::)*(\w+)\()?|\bfor (\w+) in()", whole[head.end():end]):
            kind = "usize" if m.group(3) else names.functions.get(m.group(2), [""])[-1]
            since = whole.find("{" if m.group(3) else ";", head.end() + m.end())
            bound.setdefault(m.group(1) or m.group(3), (since, kind))
        for m in re.finditer(r"(?<![\w.:'])[a-z_]\w*\b(?!\s*[(:!])", used[head.end():end]):
            at = head.end() + m.start()
            for new, (since, kind) in bound.items():
                mine = bound.get(m.group())
                if mine and new != m.group() and since < at and (kind == mine[1] or not kind or not mine[1]):
                    yield Change("local", [(at, at + len(m.group()), new)])


# ---- specs/*.antt ----

# no comment, text, import or signature; of a record the types of its fields
def antt_code(text):
    text = blank_all(text, r"--.*|\"[^\"\n]*\"|^\s*(?:use|mod|pub mod|module|unfolding) .*$|^\s*(?:pub )?record .*where$")
    text = blank_all(text, r"^(?:(?:abbrev|unfoldable|pub) )*\S+ :(?: .*)?\n(?: +[^=\n]*\n)*")
    return blank_all(text, r"^ +(?:pub )?\S+ :(?= )")


# the equations: name, left side, span of the right side
def equations(text):
    for m in re.finditer(r"^((\S+)[^=\n]*?) =(?= |$)(.*(?:\n +.*)*)", text, re.M):
        yield m.group(2), m.group(1), m.span(3)


def antt_changes(source, names):
    brought = " ".join(re.findall(r"^use .*$", source, re.M))
    text = blank_all(antt_code(source), r"^\S+[^=\n]*? =(?= |$)")
    has = lambda new: re.search(rf"[{{ ]_?{re.escape(new)}_?[,}}]", brought)
    yield from operators(text, ANTT_OPERATORS, has)
    yield from numbers(text, r".*\.\d+|.*\d+ =")
    yield from antt_order(source, antt_code(source), names)
    found = [(m.span(), m.group()) for m in re.finditer(r"(?<= )\.«?[a-z]\w*»?", text)]
    yield from renamed("field", found, [t for _, t in found], lambda a, b: names.fields_alike(a[1:], b[1:]))
    found = [(m.span(), m.group()) for m in re.finditer(r"(?<![\w.·])(?:[a-z]\w*\.)?[A-Z]\w*(?![\w.'])", text)]
    there = [t for _, t in found] + re.findall(r"[{ ]([A-Z]\w*)(?=[,}])", brought)
    yield from renamed("constructor", found, there, names.variants_alike)
    found = [(m.span(), m.group()) for m in re.finditer(r"(?<![\w.·«])[a-zA-Z][\w'-]*(?![\w.'])", text)]
    there = [t for _, t in found] + re.findall(r"[{ ]([a-z]\w*)(?=[,}])", brought)
    own = {n: i for i, (n, _, _) in reversed(list(enumerate(equations(antt_code(source)))))}
    lines = [(n, span) for n, _, span in equations(antt_code(source))]
    for c in renamed("function", found, there, names.functions_alike):
        at, _, new = c.edits[0]
        here = [own[n] for n, (a, z) in lines if a <= at < z]
        if new not in own or (here and own[new] < here[0]):
            yield c
    yield from antt_locals(antt_code(source), names)


# the variables of a left side, each with its type as the signature says it
def variables(left, names):
    types = names.functions.get(left.split()[0], [])
    types = [t for t in types if not t.startswith("{")]
    bound = {}
    for (a, z), t in zip(pieces(left, len(left.split()[0]), len(left), " "), types):
        words = left[a:z].strip("()").split()
        if len(words) == 1:
            bound[words[0]] = t
        elif "∷" in words:
            bound.update({words[0]: t + " element", words[-1]: t})
        else:
            held = names.variants.get(words[0].split(".")[-1], [("", [])])[0][1]
            bound.update(zip(words[1:], held))
    return {v: t for v, t in bound.items() if re.match(r"[a-z]", v)}


# a local for another of the same type in the same equation
def antt_locals(text, names):
    for _, left, (a, z) in equations(text):
        bound = variables(left, names)
        for m in re.finditer(r"(?<![\w.·«])[a-z]\w*(?![\w.'-])", text[a:z]):
            for new, kind in bound.items():
                if new != m.group() and bound.get(m.group()) == kind:
                    yield Change("local", [(a + m.start(), a + m.end(), new)])


# results of neighbouring equations, neighbours in a list, and arguments
def antt_order(source, text, names):
    before = None
    for name, left, span in equations(text):
        bound = set(variables(left, names))
        a, z = pieces(text, *span, r"\0")[0]
        if before and before[0] == name and before[1] == bound:
            yield from swapped("arms", source, before[2], (a, z))
        before = (name, bound, (a, z))
        opens = [a] + [i + 1 for i in range(a, z) if text[i] == "("]
        for at in opens:
            end = z if at == a else closing(text, at - 1) - 1
            rows = pieces(text, at, end, "∷")
            for x, y in zip(rows, rows[1:-1]):
                yield from swapped("rows", source, x, y)
            for part in rows:
                words = pieces(text, *part, r"\s")
                for i in names.swaps(text[slice(*words[0])], len(words) - 1) if text[slice(*words[0])] in names.functions else []:
                    yield from swapped("arguments", source, words[i + 1], words[i + 2])


# every change of a file, each kind in the order of the text
def changes_of(path, names):
    source = path.read_text(encoding="utf-8")
    make = rt_changes if path.suffix == ".rt" else antt_changes
    return [c for c in make(source, names) if apply(source, c) != source]


def apply(source, change):
    for a, z, new in sorted(change.edits, reverse=True):
        source = source[:a] + new + source[z:]
    return source
