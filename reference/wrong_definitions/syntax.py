"""Reads the definitions of a file of specs: by tokens, brackets and indentation, whatever the length of its lines."""
import collections
import re

Token = collections.namedtuple("Token", "text start end column first")  # first: of its line
Clause = collections.namedtuple("Clause", "patterns right name types")
Node = collections.namedtuple("Node", "kind at to parts")  # the tokens at .. to - 1

# operator: its precedence, and whether it groups to the right
INFIX = {"→": (1, 1), "×": (2, 1), "≡": (3, 0), "||": (4, 1), "&&": (5, 1), "∷": (6, 1), "++": (6, 1), "+": (7, 0),
         "-": (7, 0), "⊕": (7, 0), "*": (8, 0), "/": (8, 0), "%": (8, 0), "^": (9, 1)}
KEYWORDS = {"if", "then", "else", "let", "in", "λ", "=", ")", "{", "}", ";"}
PROJECTED = re.compile(r"[^\s.]*(?:\.[^\W\d][\w']*)+")  # a word and fields of it, or fields of what is in brackets


def tokenize(text):
    tokens, offset = [], 0
    for line in text.splitlines(keepends=True):
        first = True
        for found in re.finditer(r"[(){};]|[^\s(){};]+", line):
            if found[0].startswith("--"):
                break
            parts = re.findall(r"\.?[^.]+", found[0]) if PROJECTED.fullmatch(found[0]) else [found[0]]
            column = found.start()
            for part in parts:
                tokens.append(Token(part, offset + column, offset + column + len(part), column, first))
                column, first = column + len(part), False
        offset += len(line)
    return tokens


def squeeze(tokens):
    """The text of tokens with one space between them, none inside brackets or before a field."""
    return re.sub(r"(?<=\() | (?=[);]|\.[^\W\d])", "", " ".join(t.text for t in tokens))


def is_field(text):
    return text[:1] == "." and text[1:2] not in ("", ".")


def depths(tokens):
    """Each token with the number of brackets around it."""
    depth = 0
    for t in tokens:
        depth -= t.text in ")}"
        yield t, depth
        depth += t.text in "({"


def split(tokens, at, times=-1):
    """The pieces between the first so many tokens `at` that are in no bracket, or between all of them."""
    pieces = [[]]
    for t, depth in depths(tokens):
        if depth == 0 and t.text == at and len(pieces) != times + 1:
            pieces.append([])
        else:
            pieces[-1].append(t)
    return pieces


def items(tokens):
    """The tokens by item. An item begins at the start of a line, in no bracket, and is indented as the one before, or
    less; the lines of `module .. where` are an item, and the next one may be indented by more."""
    found, level, module = [], None, False
    for t, depth in depths(tokens):
        if not module and t.first and depth == 0 and t.text not in ")}" and (level is None or t.column <= level):
            found.append([])
            level, module = t.column, t.text == "module"
        found[-1].append(t)
        if module and t.text == "where":
            level, module = None, False
    return found


def inner(item):
    """The items after an item's `where`."""
    rest = split(item, "where", 1)[1:]
    first = rest[0][0]._replace(first=True) if rest else None
    return items([first] + rest[0][1:]) if rest else []


def is_signature(item):
    return len(split(split(item, "=")[0], ":")) > 1


def types(signature):
    """The types of a signature, explicit arguments first, the result last."""
    return [squeeze(piece) for piece in split(split(signature, ":", 1)[1], "→") if piece[0].text != "{"]


def clause(item, name, kinds):
    """A clause: what stands before `=`, but for its own name, are its patterns."""
    left, right = split(split(item, "where")[0], "=", 1)
    found = []
    for t, depth in depths(left):
        if depth == 0 and t.text != ")":
            found.append([])
        found[-1].append(t)
    own = [name] + name.split("◌")
    return Clause([p for p in found if p[0].text not in own], right, name, kinds)


def parameters(module):
    """The names and types of a module's parameters."""
    found = {}
    for t, depth in depths(module):
        if t.text == "(" and depth == 0:
            group = []
        elif t.text == ")" and depth == 0:
            names, kind = split(group, ":")
            found.update({n.text: squeeze(kind) for n in names})
        elif depth:
            group.append(t)
    return found


class Definition:
    def __init__(self, file, item, params):
        words = [t for t in item if t.text not in ("abbrev", "unfoldable", "pub")]
        self.file, self.params, self.tokens, self.clauses = file, params, list(item), []
        self.name, self.types, self.transparent = words[0].text, types(words), item[0].text != "unfoldable"
        self.unfolding, self.body = [], None

    def add(self, item):
        """Its `unfolding` line, or a clause with the local definitions after its `where`."""
        self.tokens += item
        if item[0].text == "unfolding":
            self.unfolding = item
            return
        self.body = self.body or item[0]
        self.clauses.append(clause(item, self.name, self.types))
        for local in inner(item):
            if is_signature(local):
                name, kinds = local[0].text, types(local)
            else:
                self.clauses.append(clause(local, name, kinds))

    def is_proposition(self):
        return self.types[-1].startswith("Type ")


class File:
    def __init__(self, path, text):
        self.path, self.text, self.module = path, text, path.stem
        self.definitions, self.records, self.data, self.imported = [], [], [], {}
        params = {}
        for item in items(tokenize(text)):
            kind = next(t.text for t in item if t.text != "pub")
            if kind == "use":
                library, names = re.fullmatch(r"use (.*)\. \{ (.*) \}", squeeze(item)).groups()
                self.imported.update({name.split(" as ")[-1]: library for name in re.split(r",\s*", names)})
            elif kind == "module":
                params = parameters(item)
            elif kind == "record":
                fields = [[t for t in field if t.text != "pub"] for field in inner(item)]
                self.records.append({field[0].text: squeeze(field[2:]) for field in fields})
            elif kind == "data":
                self.data.append([t.text for line in inner(item) for t in split(line, ":")[0]])
            elif kind == "unfolding" or not kind.startswith("infix") and kind != "mod" and not is_signature(item):
                self.definitions[-1].add(item)
            elif is_signature(item):
                self.definitions.append(Definition(self, item, params if item[0].column else {}))
        self.scope = {*self.imported, *(d.name for d in self.definitions), *sum(self.data, [])}


class Parser:
    """Expressions: words, fields, applications, operators, if, let, λ, record."""

    def __init__(self, tokens):
        self.tokens, self.at = tokens, 0

    def word(self):
        return self.tokens[self.at].text if self.at < len(self.tokens) else ""

    def skip(self, word):
        assert self.word() == word, f"{word} expected at {self.at} of {squeeze(self.tokens)}"
        self.at += 1

    def node(self, kind, at, *parts):
        return Node(kind, at, self.at, parts)

    def expression(self, least=0):
        at, word = self.at, self.word()
        if word == "if":
            parts = []
            for keyword in ("if", "then", "else"):
                self.skip(keyword)
                parts.append(self.expression())
            return self.node("if", at, *parts)
        if word == "let":
            self.at += 3
            value = self.expression()
            self.skip("in")
            return self.node("let", at, self.tokens[at + 1].text, value, self.expression())
        if word == "λ":
            while not self.word().endswith("."):
                self.at += 1
            self.at += 1
            names = [t.text.rstrip(".") for t in self.tokens[at + 1:self.at]]
            return self.node("λ", at, names, self.expression())
        left = self.application()
        while self.word() in INFIX and INFIX[self.word()][0] >= least:
            operator, (level, rightwards) = self.at, INFIX[self.word()]
            self.at += 1
            left = self.node("infix", at, operator, left, self.expression(level if rightwards else level + 1))
        return left

    def application(self):
        at, parts = self.at, [self.atom()]
        while self.word() and self.word() not in KEYWORDS and self.word() not in INFIX:
            parts.append(self.atom())
        return self.node("apply", at, *parts) if len(parts) > 1 else parts[0]

    def atom(self):
        at, found = self.at, self.whole()
        while is_field(self.word()):
            self.at += 1
            found = self.node("field", at, found)
        return found

    def whole(self):
        at, word = self.at, self.word()
        self.at += 1
        if word == "(":
            within = self.expression()
            self.skip(")")
            return self.node("group", at, within)
        if word == "record":
            self.skip("{")
            fields = []
            while self.word() != "}":
                name = self.word()
                self.at += 1
                self.skip("=")
                fields.append((name, self.expression()))
                if self.word() == ";":
                    self.at += 1
            self.at += 1
            return self.node("record", at, fields)
        return self.node("word", at)


def parse(tokens):
    parser = Parser(tokens)
    root = parser.expression()
    assert parser.at == len(tokens), f"not read to its end: {squeeze(tokens)}"
    return root
