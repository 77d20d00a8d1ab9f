"""Makes wrong definitions: every definition changed in one place at a time."""
import collections

from .syntax import Node, depths, is_field, parse, squeeze, tokenize

# the tokens at .. to - 1 become the text `new`, which uses these names
Change = collections.namedtuple("Change", "at to new uses")
Wrong = collections.namedtuple("Wrong", "definition said text alone imports")

# what an operator, or a name, is taken for
OPERATORS = {"||": ["&&"], "&&": ["||"], "+": ["*", "-"], "-": ["+"], "*": ["+"], "/": ["%", "*"], "%": ["/"],
             "^": ["*"]}
FAMILIES = [["leb", "ltb", "eqb"], ["min", "max"], ["take", "drop"], ["true", "false"], ["some", "none"],
            ["each", "each_back"], ["times", "times_back"], ["up", "left", "up_left"]]
SWAPPED = {"-", "/", "%", "^", "++"}  # the operators whose operands are swapped: for others it changes nothing
SYMMETRIC = {"eqb", "min", "max"}  # nor for these functions
TYPES = {"set": "List ℕ → ℕ → ℕ → List ℕ", "take": "ℕ → List ℕ → List ℕ", "drop": "ℕ → List ℕ → List ℕ",
         "not": "Bool → Bool", "get_or": "List ℕ → ℕ → ℕ → ℕ", "replicate": "ℕ → ℕ → List ℕ", "min": "ℕ → ℕ → ℕ",
         "max": "ℕ → ℕ → ℕ", "leb": "ℕ → ℕ → Bool", "ltb": "ℕ → ℕ → Bool", "eqb": "ℕ → ℕ → Bool"}
CONSTRUCTORS = {"true", "false", "some", "none", "off", "zero", "suc", "pos", "negsuc", "[]", "∷"}
COMPARISONS = {"leb", "ltb", "eqb"}


def is_group(tokens):
    return tokens[0].text == "(" and all(depth for _, depth in list(depths(tokens))[1:-1])


def operand(text):
    """The text as one operand or argument."""
    tokens = tokenize(text)
    while len(tokens) > 1 and is_field(tokens[-1].text):
        tokens.pop()
    return text if len(tokens) == 1 or is_group(tokens) else f"({text})"


def next_and_last(entries, entry):
    """The entries beside one, the first and the last side by side."""
    at = entries.index(entry)
    return [entries[(at + 1) % len(entries)], entries[at - 1]]


class Changes:
    """All changes of a clause's right side, each with the piece around it by which it is told."""

    def __init__(self, rules, definition, clause):
        self.rules, self.definition, self.clause, self.tokens = rules, definition, clause, clause.right
        self.found, self.variables = {}, set()
        root = parse(self.tokens)
        self.visit(root, {**definition.params, **self.bound()}, root)

    def bound(self):
        """The variables of the patterns, with their types where these are plain."""
        found = {}
        for pattern, kind in zip(self.clause.patterns, self.clause.types):
            words = [t.text for t in pattern if t.text not in "()"]
            if words[1:2] == ["∷"] and len(words) == 3 and kind.startswith("List "):
                kinds = [kind.removeprefix("List ").strip("()"), None, kind]
            else:
                kinds = [kind if len(words) == 1 or words[0] == "suc" else None] * len(words)
            found.update({w: k for w, k in zip(words, kinds) if w not in CONSTRUCTORS | self.rules.constructors})
        return found

    def text(self, node):
        return squeeze(self.tokens[node.at:node.to])

    def change(self, node, new, piece):
        new = operand(new)
        if new != operand(self.text(node)):
            uses = {t.text for t in tokenize(new)} - {t.text for t in self.tokens[node.at:node.to]}
            self.found.setdefault((node.at, node.to, new), (Change(node.at, node.to, new, uses), piece))

    def swap(self, one, two, piece=None):
        whole = Node("", one.at, two.to, ())
        new = " ".join([operand(self.text(two)), squeeze(self.tokens[one.to:two.at]), operand(self.text(one))])
        if self.text(one) != self.text(two):
            self.found[one.at, two.to, new] = Change(one.at, two.to, new, set()), piece or whole

    def visit(self, node, scope, piece):
        """Changes a node and what is in it; scope has the types of the variables, None where they are not known."""
        self.variables.update(scope)
        inner = []  # the nodes in it, each with its scope and the piece by which a change of a word is told
        if node.kind == "word":
            self.word(node, scope, piece)
        elif node.kind == "group":
            inner = [(node.parts[0], scope, piece)]
        elif node.kind == "field":
            self.field(node)
            inner = [(node.parts[0], scope, node)]
        elif node.kind == "apply":
            self.apply(node)
            inner = [(part, scope, node) for part in node.parts]
        elif node.kind == "infix":
            self.infix(node)
            inner = [(part, scope, node) for part in node.parts[1:]]
        elif node.kind == "if":
            condition = node.parts[0]
            for new in ("true", "false", f"not {operand(self.text(condition))}"):
                self.change(condition, new, condition)
            inner = [(part, scope, node) for part in node.parts]
        elif node.kind == "let":
            name, value, rest = node.parts
            inner = [(value, scope, value), (rest, {**scope, name: None}, rest)]
        elif node.kind == "λ":
            inner = [(node.parts[1], {**scope, **dict.fromkeys(node.parts[0])}, node)]
        elif node.kind == "record":
            self.record(node)
            inner = [(value, scope, Node("", value.at - 2, value.to, ())) for _, value in node.parts[0]]
        for part, known, around in inner:
            self.visit(part, known, around)

    def word(self, node, scope, piece):
        word = self.text(node)
        if word.isdigit():
            others = {str(int(word) + 1), str(max(int(word) - 1, 0))}
        elif word in scope:
            same = [name for name in scope if scope[name] == scope[word]]
            others = set(next_and_last(same, word)) | {name for name in scope if not (scope[word] and scope[name])}
        else:
            others = set(self.rules.taken_for(self.definition, word))
            if word == "eqb" and piece.kind == "apply" and self.text(piece.parts[-1]) == "0":
                others.discard("leb")  # which is the same
        for new in sorted(others):
            self.change(node, new, piece)

    def field(self, node):
        """Another field of the same type."""
        name = self.tokens[node.to - 1].text[1:]
        for record in self.rules.records:
            if name in record:
                for new in next_and_last([n for n in record if record[n] == record[name]], name):
                    self.change(Node("", node.to - 1, node.to, ()), f".{new}", node)

    def apply(self, node):
        head, args = self.text(node.parts[0]), node.parts[1:]
        kinds = self.rules.types(head)
        if head in COMPARISONS:
            self.change(node, f"not ({self.text(node)})", node)
        for i, one in enumerate(args):
            for j in range(i + 1, len(args)):
                near = j == i + 1 or len(args) <= 4 and kinds
                if near and head not in SYMMETRIC and (len(kinds) <= j + 1 or kinds[i] == kinds[j]):
                    self.swap(one, args[j], node)
        for arg, kind in zip(args, kinds):  # the call is left out: an argument stands for its result
            if len(args) == len(kinds) - 1 and kind == kinds[-1]:
                self.change(node, self.text(arg), node)
        if head == self.clause.name:  # an argument of a recursive call is left as it was
            for arg, pattern in zip(args, self.clause.patterns):
                self.change(arg, squeeze(pattern), node)

    def infix(self, node):
        operator, left, right = node.parts
        word = self.tokens[operator].text
        for new in OPERATORS.get(word, []):
            self.change(Node("", operator, operator + 1, ()), new, node)
        self.change(node, self.text(left), node)
        self.change(node, self.text(right), node)
        if word in ("∷", "++") and right.kind == "infix" and self.tokens[right.parts[0]].text == word:
            self.swap(left, right.parts[1])
        elif word in SWAPPED:
            self.swap(left, right, node)

    def record(self, node):
        """A field's value is that of another field of the same type."""
        fields = dict(node.parts[0])
        kinds = next((record for record in self.rules.records if set(record) == set(fields)), {})
        for name, value in fields.items():
            for other in next_and_last([n for n in fields if kinds.get(n) == kinds.get(name)], name) if kinds else []:
                self.change(value, self.text(fields[other]), Node("", value.at - 2, value.to, ()))


class Rules:
    """All files of specs; the definitions of the modules that are not excluded."""

    def __init__(self, files, excluded):
        believed = [f for f in files if f.module not in excluded]
        self.files = files
        self.records = [record for f in believed for record in f.records]
        self.constructors = {name for f in believed for data in f.data for name in data}
        self.definitions = {d.name: d for f in believed for d in f.definitions}
        self.libraries = {name: library for f in files for name, library in f.imported.items()}
        self.families = collections.defaultdict(set)
        for family in FAMILIES + [data for f in believed for data in f.data]:
            for name in family:
                self.families[name] |= set(family)

    def types(self, name):
        if name in self.definitions:
            return self.definitions[name].types
        return TYPES[name].split(" → ") if name in TYPES else []

    def taken_for(self, definition, word):
        """What a name may be taken for: its family, and definitions of the same type that the file knows."""
        scope = definition.file.scope
        known = scope & set(self.definitions) if word in self.definitions else ()
        same = {name for name in known if self.types(name) == self.types(word)}
        for new in self.families[word] | same - {definition.name}:
            # A transparent definition unfolds nothing: a claim would be refused only because it is not computed.
            hidden = definition.transparent and new in self.definitions and not self.definitions[new].transparent
            if not hidden and (new in scope or new in self.libraries):
                yield new

    def wrong(self, definition):
        """The wrong definitions in place of one."""
        told = collections.Counter()
        for clause in definition.clauses:
            changes = Changes(self, definition, clause)
            for change, piece in sorted(changes.found.values(), key=lambda found: found[0][:3]):
                change = change._replace(uses=change.uses - changes.variables)
                said = tell(clause.right, change, piece)
                told[said] += 1
                if told[said] > 1:
                    said += f" #{told[said]}"
                yield Wrong(definition, said, *self.write(definition, clause.right, change))

    def write(self, definition, tokens, change):
        """The file with the change, the changed definition alone, and the lines that import what it uses."""
        file, text = definition.file, definition.file.text
        edits = [(tokens[change.at].start, tokens[change.to - 1].end, change.new)]
        hidden = [n for n in change.uses if n in self.definitions and not self.definitions[n].transparent]
        unfold = " ".join(sorted(hidden))
        if unfold and definition.unfolding:
            edits.append((definition.unfolding[-1].end, definition.unfolding[-1].end, f" {unfold}"))
        elif unfold:
            body = definition.body
            edits.append((body.start, body.start, f"unfolding {unfold}\n{' ' * body.column}"))
        for at, to, new in sorted(edits, reverse=True):
            text = text[:at] + new + text[to:]
        alone = text[definition.tokens[0].start:definition.tokens[-1].end + len(text) - len(file.text)]
        names = {n if n in self.libraries else f"◌{n}◌" for n in change.uses} - file.scope
        return text, alone, {f"use {self.libraries[n]}.{{{n}}}\n" for n in names if n in self.libraries}


def tell(tokens, change, piece):
    """What became what, on one line; of a long piece only what stands beside the change."""
    at, to = min(piece.at, change.at), max(piece.to, change.to)
    left, old, right = tokens[at:change.at], tokens[change.at:change.to], tokens[change.to:to]
    new = tokenize(change.new)
    if len(squeeze(tokens[at:to])) > 100:
        left = tokenize("..") + left[-4:] if len(left) > 4 else left
        right = right[:4] + tokenize("..") if len(right) > 4 else right
    if not left and not right and is_group(new):
        new = new[1:-1]
    return f"{squeeze(left + old + right)} -> {squeeze(left + new + right)}"
