"""Texts made from the grammar: well typed for the most part."""


class Maker:
    """Makes one text. `slips` is how often a part is chosen with no regard for its kind. The start heap of a tame
    text meets the header's conditions for the most part, so that other obligations decide."""

    def __init__(self, rng, slips):
        self.rng, self.slips = rng, slips
        self.tame = rng.random() < 0.75
        self.flags = [f"flag{i}" for i in range(rng.choice((0, 1, 1, 2, 2, 3)))]
        self.pointers = [f"next{i}" for i in range(rng.choice((0, 1, 1, 2, 2)))]
        self.nodes = [f"node{i}" for i in range(rng.choice((1, 1, 2, 2, 3)))]
        self.locks = rng.random() < 0.2

    def one(self, *choices):
        return self.rng.choice(choices)

    def slip(self):
        return self.rng.random() < self.slips

    def any_name(self):
        return self.one(*self.flags, *self.pointers, *self.nodes, "x", "j", "k", "p", "c", "other")

    def any_operand(self):
        dotted = f"{self.one('x', 'j', 'k', 'p', 'root', 'other')}.{self.one('key', self.any_name())}"
        return self.one(dotted, dotted, "MIN", "MAX", "null", "root", self.any_name())

    def condition(self, atom, depth=2):
        conjunctions = []
        for _ in range(self.one(1, 1, 2, 3)):
            literals = [self.literal(atom, depth) for _ in range(self.one(1, 1, 2))]
            conjunctions.append(" && ".join(literals))
        return " || ".join(conjunctions)

    def literal(self, atom, depth):
        if self.slip():
            return f"{self.any_operand()} {self.one('==', '!=', '<', '<=')} {self.any_operand()}"
        if depth and self.rng.random() < 0.2:
            return f"({self.condition(atom, depth - 1)})"
        return self.one("true", "false") if self.rng.random() < 0.1 else atom()

    def key_atom(self, keys):
        return f"{self.one(*keys)} {self.one('==', '!=', '<', '<=', '<')} {self.one(*keys)}"

    def flag_atom(self, node):
        flag = f"{node}.{self.one(*self.flags)}"
        return self.one(flag, flag, "!" + flag, f"{flag} {self.one('==', '!=')} {node}.{self.one(*self.flags)}")

    def edge_atom(self):
        keys = ("x.key", "x.key", "j", "j", "MIN", "MAX")
        return self.flag_atom("x") if self.flags and self.rng.random() < 0.4 else self.key_atom(keys)

    def keep_atom(self):
        if self.rng.random() < 0.2:
            return "j in x"
        if self.pointers and self.rng.random() < 0.3:
            return f"x.{self.one(*self.pointers)} {self.one('==', '!=')} null"
        return self.edge_atom()

    def freeze_atom(self):
        keys = ("x.key", "x.key", "MIN", "MAX")
        return self.flag_atom("x") if self.flags and self.rng.random() < 0.7 else self.key_atom(keys)

    def start(self, node):
        values = ("false",) if self.tame and self.rng.random() < 0.8 else ("true", "false")
        items = [f"{flag} = {self.one(*values)};" for flag in self.flags if self.rng.random() < 0.5]
        targets = ("null",) if self.tame and self.rng.random() < 0.7 else ("null", *self.nodes)
        items += [f"{pointer} = {self.one(*targets)};" for pointer in self.pointers if self.rng.random() < 0.7]
        if self.slip():
            items.append(f"{self.any_name()} = {self.one('true', 'null', self.any_name())};")
        self.rng.shuffle(items)
        return f"start {node} {{ key = {self.one('MIN', 'MIN', 'MAX')}; {' '.join(items)} }}"

    def holds(self):
        if not self.tame:
            return self.one("false", self.condition(self.edge_atom))
        if self.flags and self.rng.random() < 0.4:
            rest = self.one("", "", " && x.key == MIN", " && j < x.key", " || x.key == j")
            return f"x.{self.one(*self.flags)}{rest}"
        return self.one("false", "x.key == j", "j < x.key && x.key != MAX")

    def keep(self):
        guards = ("x.key == MIN || x.key == MAX", "j in x", "x.key == MIN", "x.key < j", "j <= x.key")
        guards += tuple(f"!x.{flag}" for flag in self.flags) * 3
        if self.flags and self.rng.random() < 0.3:
            return f"!x.{self.one(*self.flags)}"
        condition = self.condition(self.keep_atom)
        return f"{self.one(*guards)} || {condition}" if self.tame else condition

    def header(self):
        lines = ["structure made;"]
        lines += [f"flag {flag};" for flag in self.flags]
        lines += [f"ptr {pointer} {self.one('free', 'free', 'asc', 'desc')};" for pointer in self.pointers]
        lines += ["lock;"] * self.locks
        lines += [f"root {self.one(*self.nodes)};"] * (self.one(0, 2) if self.slip() else 1)
        lines += [self.start(node) for node in self.nodes]
        edged = [pointer for pointer in self.pointers if self.rng.random() < 0.8]
        lines += [f"edge {pointer} : {self.condition(self.edge_atom)};" for pointer in edged]
        lines.append(f"holds {self.holds()};")
        lines += [f"keep keep{i} : {self.keep()};" for i in range(self.one(0, 0, 1, 1, 2))]
        return lines

    def single_return(self, i):
        kind = self.one("contains", "contains", "contains", "insert", "delete", "upkeep")
        name = kind if i == 0 else f"method{i} as {kind}"
        value = self.one("false", "false", "false", "true")
        return f"method {name}(k) {{ return {value}; }}"

    def test(self, node):
        if self.slip():
            return f"{self.any_operand()} {self.one('==', '!=', '<', '<=')} {self.any_operand()}"
        if self.flags and self.rng.random() < 0.3:
            return self.flag_atom(node)
        if self.pointers and self.rng.random() < 0.3:
            return f"{node}.{self.one(*self.pointers)} {self.one('==', '!=')} {self.one('null', 'p', 'c', 'root')}"
        keys = (f"{node}.key", f"{node}.key", "k", "k", "MIN", "MAX")
        return self.one(self.key_atom(keys), f"{node} == null", "p != c")

    def tests(self):
        node = self.one("p", "c", "n", "root")
        return " && ".join(self.test(node) for _ in range(self.one(1, 1, 2, 3)))

    def block(self, depth, in_loop):
        parts = ["with p, c;"] * self.one(0, 0, 1)
        parts += [f"test {self.test(self.one('p', 'c', 'root'))};" for _ in range(self.one(0, 1, 2))]
        if self.pointers and self.rng.random() < 0.5:
            parts.append(f"n = {self.one('p', 'c', 'root')}.{self.one(*self.pointers)};")
        written = self.one("p", "c", "root")
        values = [(flag, ("true", "false")) for flag in self.flags]
        values += [(pointer, ("null", "p", "c", "root")) for pointer in self.pointers]
        self.rng.shuffle(values)
        for field, choices in values[: self.one(0, 1, 1, 2)]:
            parts.append(f"write {written}.{field} = {self.one(*choices)};")
        otherwise = f" else {self.body(depth, in_loop)}" if depth and self.rng.random() < 0.5 else ""
        return f"atomic {{ {' '.join(parts)} }}{otherwise}"

    def statement(self, depth, in_loop):
        simple = [
            lambda: f"{self.one('p', 'c', 'n')} = {self.one('new', 'null', 'root', 'p', 'c')};",
            lambda: f"return {self.one('true', 'false')};",
            lambda: self.block(depth, in_loop),
        ]
        if self.pointers:
            simple.append(lambda: f"{self.one('n', 'c')} = {self.one('p', 'root')}.{self.one(*self.pointers)};")
        if self.locks:
            simple.append(lambda: f"{self.one('lock', 'unlock')} {self.one('p', 'c', 'root')};")
        if in_loop or self.slip():
            simple.append(lambda: self.one("break;", "continue;"))
        nested = [
            lambda: f"if ({self.tests()}) {self.body(depth, in_loop)}",
            lambda: f"if ({self.tests()}) {self.body(depth, in_loop)} else {self.body(depth, in_loop)}",
            lambda: f"while ({self.tests()}) {self.body(depth, True)}",
            lambda: f"loop {self.body(depth, True, '' if self.slip() else 'p = c; ')}",
        ]
        return self.rng.choice(simple + nested if depth else simple)()

    def statements(self, depth, in_loop):
        count = self.one(0, 1, 1, 2, 3) if in_loop else self.one(1, 1, 2, 3)
        return " ".join(self.statement(depth, in_loop) for _ in range(count))

    def body(self, depth, in_loop, first=""):
        return f"{{ {first}{self.statements(depth - 1, in_loop)} }}"

    def method(self, i):
        kind = self.one("contains", "insert", "delete", "upkeep", "other" if self.slip() else "contains")
        name = kind if i == 0 else f"method{i} as {kind}"
        last = "" if self.rng.random() < 0.1 else " return false;"
        return f"method {name}(k) {{ var p, c, n; {self.statements(3, False)}{last} }}"

    def text(self, method):
        lines = self.header()
        if method == self.method and self.rng.random() < 0.3:
            lines.append(f"freeze {self.condition(self.freeze_atom)};")
        lines += [method(i) for i in range(self.one(1, 1, 2, 3))]
        return "\n".join(lines).encode() + b"\n"


def made_single_returns(rng):
    maker = Maker(rng, rng.choice((0, 0, 0, 0.03)))
    maker.locks = False
    return maker.text(maker.single_return)


def made_methods(rng):
    maker = Maker(rng, rng.choice((0, 0, 0.01, 0.05)))
    return maker.text(maker.method)
