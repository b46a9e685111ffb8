"""Makes wrong definitions out of right ones: every small change of a definition's right-hand sides, by kind.

Kinds: a number by one; a character of a text dropped; a comparison turned, or its equals given or taken; && for || and
true for false; a test dropped; branches exchanged or one left out; clauses exchanged; two arguments exchanged; a
variable, field, constructor or definition for another of its type; what a definition is put on in its place; a list's
element dropped or exchanged with the next; an operator for another. Types are known by their words alone: some changes
do not typecheck."""
import collections
import re

import antt

TOKEN = re.compile(r'"[^"]*"|\[\]|[(){};]|\.[^\s(){};".]*|[^\s(){};".]+')
NO_ATOM = set("+ - * / % ^ && || ∷ ++ ≡ × ⊎ → = < ≤ ¬ in let λ then else ) } ; {".split())
TWINS = {"ltb": "leb", "leb": "ltb", "<": "≤", "≤": "<"}
LOGIC = {"&&": "||", "||": "&&", "×": "⊎", "⊎": "×", "true": "false", "false": "true"}
OPERATORS = {"/": "%", "%": "/", "+": "-", "-": "+", "*": "+", "bit_and": "bit_or", "bit_or": "bit_and"}
CHAINS = [("test", {"&&", "||"}), ("test", {"×", "⊎"}), ("list", {"∷"}), ("list", {"++"})]

Change = collections.namedtuple("Change", "kind start end new")


def arrows(text):
    """A type, cut at its outer arrows, without the names of its arguments."""
    parts, depth, last = [], 0, []
    for word in re.findall(r"[(){}]|[^\s(){}]+", text):
        depth += word in "({"
        depth -= word in ")}"
        if word == "→" and depth == 0:
            parts.append(" ".join(last))
            last = []
        else:
            last.append(word)
    return parts + [" ".join(last)]


class Types:
    """What the crates declare: the types of definitions, fields by record, constructors by enumeration."""

    def __init__(self, crates):
        self.of = {**dict.fromkeys(["eqb", "ltb", "leb"], ["ℕ", "ℕ", "Bool"]), "not": ["Bool", "Bool"]}
        self.fields, self.made = collections.defaultdict(set), collections.defaultdict(set)
        for crate in crates:
            for path in (antt.CRATES / crate / "specs").glob("*.antt"):
                self.specs(antt.declared(crate, "specs", path)[0])
            for path in (antt.CRATES / crate / "src").rglob("*.rt"):
                self.types(re.sub(r"//[^\n]*", "", path.read_text()))

    def group(self, where, members):
        """Members of one type stand for each other."""
        for kind in set(members.values()):
            alike = {name for name in members if members[name] == kind}
            for name in alike:
                where[name] |= alike - {name}

    def specs(self, found):
        for d in found:
            text = d.parts[0][1]
            if d.kind == "record":
                self.group(self.fields, dict(re.findall(r"\n\s+(?:pub )?(\S+) : (.*)", text)))
            elif d.kind == "data":
                self.group(self.made, dict(re.findall(r"\n\s+(?:pub )?(\S+) : (.*)", text)))
            else:
                self.of.setdefault(d.name, arrows(text.split(" :", 1)[1]))

    def types(self, text):
        for _, body in re.findall(r"struct (\w+) \{(.*?)\n\}", text, re.S):
            self.group(self.fields, dict(re.findall(r"(\w+): ([^,\n]+)", body)))
        for _, body in re.findall(r"enum (\w+) \{(.*?)\n\}", text, re.S):
            self.group(self.made, dict(re.findall(r"(\w+)(\([^)]*\))?,", body)))


class Clause:
    """The tokens of a clause's right-hand side, with their places in the file."""

    def __init__(self, at, piece):
        equals = re.search(r"\s=\s", piece)
        self.begin = equals.end() if equals else len(piece)
        self.left = piece[:self.begin].split()[1:]
        self.text, self.at = piece, at
        self.tokens = [(m.group(0), m.start(), m.end()) for m in TOKEN.finditer(piece, self.begin)]
        self.pair, waiting = {}, []
        for i, (word, _, _) in enumerate(self.tokens):
            if word in "({":
                waiting.append(i)
            elif word in ")}" and waiting:
                j = waiting.pop()
                self.pair[i], self.pair[j] = j, i

    def after(self, i):
        """The token after the atom at i with the fields that are taken of it, or none where no atom is there."""
        if i >= len(self.tokens) or self.tokens[i][0] in NO_ATOM or self.tokens[i][0].startswith("."):
            return None
        k = self.pair.get(i + 1, i) + 1 if self.tokens[i][0] == "record" else self.pair.get(i, i) + 1
        while k < len(self.tokens) and self.tokens[k][0].startswith(".") and self.tokens[k][1] == self.tokens[k - 1][2]:
            k += 1
        return k

    def arguments(self, i):
        """The atoms behind i, each from one token to another."""
        found, k = [], i + 1
        while self.after(k):
            found.append((k, self.after(k)))
            k = self.after(k)
        return found

    def words(self, i, j):
        return self.text[self.tokens[i][1]:self.tokens[j - 1][2]]

    def put(self, kind, i, j, new):
        """The change that puts a text in the place of tokens i to j."""
        return Change(kind, self.at + self.tokens[i][1], self.at + self.tokens[j - 1][2], new)

    def exchanged(self, kind, one, other):
        between = self.text[self.tokens[one[1] - 1][2]:self.tokens[other[0]][1]]
        return self.put(kind, one[0], other[1], self.words(*other) + between + self.words(*one))


def by_token(clause, i, scope, types, alike):
    """The changes of one token."""
    word = clause.tokens[i][0]
    following = clause.tokens[i + 1][0] if i + 1 < len(clause.tokens) else ""
    one = lambda kind, new: clause.put(kind, i, i + 1, new)
    number = re.fullmatch(r"(0x|0b)?([0-9A-Fa-f]+)", word)
    if number and (number.group(1) or word.isdigit()):
        base = {"0x": 16, "0b": 2, None: 10}[number.group(1)]
        value, width = int(number.group(2), base), len(number.group(2))
        show = lambda n: {16: f"0x{n:0{width}x}", 2: f"0b{n:0{width}b}", 10: str(n)}[base]
        yield one("number", show(value + 1))
        if value:
            yield one("number", show(value - 1))
        return
    if word.startswith('"') and len(word) > 2:
        yield one("text", word[:-2] + '"')
        yield one("text", '"' + word[2:])
    if word in TWINS:
        yield one("comparison", TWINS[word])
    if word in LOGIC:
        yield one("logic", LOGIC[word])
    if word in OPERATORS and (OPERATORS[word] in scope or "◌" + OPERATORS[word] + "◌" in scope):
        yield one("operator", OPERATORS[word])
    if word == "%" and i and clause.after(i + 1):
        last = clause.tokens[clause.after(i + 1) - 1]
        yield Change("operator", clause.at + clause.tokens[i - 1][2], clause.at + last[2], "")
    if word.startswith("."):
        yield from (one("field", "." + other) for other in sorted(types.fields.get(word[1:], ())))
        return
    if following == "=":
        return
    yield from (one("constructor", other) for other in sorted(types.made.get(word, ())) if other in scope)
    if word in alike:
        yield from (one("variable", other) for other in alike[word] if other != word)
    elif word in types.of:
        yield from (one("definition", other) for other in sorted(scope)
                    if other != word and not other[0].isupper() and types.of.get(other) == types.of[word])
        yield from by_arguments(clause, i, types)
    elif word == "pick":
        yield from by_arguments(clause, i, types)


def by_arguments(clause, i, types):
    """The changes of what a definition is put on."""
    word, given = clause.tokens[i][0], clause.arguments(i)
    if word == "pick":
        if len(given) >= 3:
            yield clause.exchanged("branch", given[1], given[2])
        if len(given) == 3:
            yield clause.put("branch", i, given[2][1], clause.words(*given[1]))
            yield clause.put("branch", i, given[2][1], clause.words(*given[2]))
        return
    kinds = [kind for kind in types.of[word] if not kind.startswith("{")]
    for p in range(min(len(given), len(kinds) - 1)):
        for q in range(p + 1, min(len(given), len(kinds) - 1)):
            if kinds[p] == kinds[q] and word != "eqb" and clause.words(*given[p]) != clause.words(*given[q]):
                yield clause.exchanged("comparison" if word in TWINS else "arguments", given[p], given[q])
        if len(given) == len(kinds) - 1 and kinds[p] == kinds[-1]:
            yield clause.put("skipped", i, given[-1][1], clause.words(*given[p]))


def by_chain(clause, low, high):
    """The changes of a chain of tests or of a list, between two tokens at one depth."""
    for kind, signs in CHAINS:
        parts, k, start = [], low, low
        while k < high:
            word = clause.tokens[k][0]
            if word in "({" and k in clause.pair:
                k = clause.pair[k]
            elif word in ("in", ";", "="):
                parts, start = [], k + 1
            elif word in signs:
                parts.append((start, k))
                start = k + 1
            k += 1
        if not parts:
            continue
        whole = parts + ([] if signs == {"∷"} else [(start, high)])
        for n, (i, j) in enumerate(whole):
            if i >= j:
                continue
            if n < len(parts):
                yield Change(kind, clause.at + clause.tokens[i][1], clause.at + clause.tokens[j + 1][1], "")
            else:
                yield Change(kind, clause.at + clause.tokens[i - 2][2], clause.at + clause.tokens[j - 1][2], "")
            if kind == "list" and n + 1 < len(whole) and whole[n + 1][0] < whole[n + 1][1]:
                yield clause.exchanged(kind, (i, j), whole[n + 1])


def variables(clause, types):
    """The variables of a clause by name, each with those of its type."""
    by_type = collections.defaultdict(list)
    plain = re.findall(r"\([^()]*\)|[^\s()]+", " ".join(clause.left[:-1]))
    for word, kind in zip(plain, [k for k in types if not k.startswith("{")]):
        if re.fullmatch(r"[a-zα-ω][^\s()]*", word):
            by_type[kind].append(word)
    return {word: alike for alike in by_type.values() for word in alike}


def changes(definition, text, scope, types):
    """Every change of a definition in its file's text, each once."""
    clauses = [Clause(at, piece) for at, piece in definition.parts[1:]]
    found = []
    for clause in clauses:
        alike = variables(clause, types.of.get(definition.name, [])[:-1])
        for i in range(len(clause.tokens)):
            found += by_token(clause, i, scope, types, alike)
        inner = [(i, j) for i, j in clause.pair.items() if i < j and clause.tokens[i][0] == "("]
        for low, high in [(-1, len(clause.tokens))] + inner:
            found += by_chain(clause, low + 1, high)
    for one, other in zip(clauses, clauses[1:]):
        right, wrong = one.text[one.begin:], other.text[other.begin:]
        if right != wrong and right and wrong:
            between = text[one.at + len(one.text):other.at + other.begin]
            found.append(Change("clause", one.at + one.begin, other.at + len(other.text), wrong + between + right))
    return list(dict.fromkeys(found))
