"""Texts at a limit and beyond it, cut texts, and texts with bytes and gaps put in."""

from language import BYTES_LIMIT, LEXEME


def one_node(
    name="one", fields="", starts="", edges="", holds="false", keeps="", body="return false;", methods=""
):
    """The smallest text, with parts put in."""
    header = f"structure {name};\n{fields}root a;\nstart a {{ key = MIN; }}\n{starts}{edges}holds {holds};\n{keeps}"
    return f"{header}method contains(k) {{ {body} }}\n{methods}".encode()


OPENINGS = {
    "if": "if (k == k) {",
    "while": "while (k < k) {",
    "loop": "loop { p = p;",
    "else": "atomic { } else {",
}


def nestings():
    for depth in range(28, 36):
        nested = "(" * depth + "false" + ")" * depth
        yield f"parentheses {depth}", one_node(holds=nested)
        yield f"parentheses of a keep {depth}", one_node(keeps=f"keep deep : true || true && {nested};\n")
        yield f"parentheses unclosed {depth}", one_node(holds="(" * depth + "false")
        yield f"parentheses and a fault inside {depth}", one_node(holds="(" * depth + "; " + ")" * depth)
        for label, opening in OPENINGS.items():
            body = f"var p; {opening * (depth - 1)} return false; {'}' * (depth - 1)} return true;"
            yield f"{label} {depth}", one_node(body=body)
            yield f"{label} with a test below {depth}", one_node(body=f"{opening * (depth - 1)} if (k == k")
        loops, ends = "loop { p = p;" * (depth - 2), "}" * (depth - 2)
        yield f"atomic at {depth}", one_node(body=f"{loops} atomic {{ test k == k; }} {ends}")


def numbered(line, count, first=1):
    return "".join(line.format(i=i) for i in range(first, first + count))


def limits():
    for over in (-1, 0, 1, 5):
        yield f"flags 6{over:+}", one_node(fields=numbered("flag f{i};\n", 6 + over))
        pointers, edges = numbered("ptr f{i} free;\n", 2 + over), numbered("edge f{i} : false;\n", 2 + over)
        yield f"pointers 2{over:+}", one_node(fields=pointers, edges=edges)
        yield f"nodes 16{over:+}", one_node(starts=numbered("start b{i} {{ key = MAX; }}\n", 15 + over))
        others = numbered("method m{i} as delete(k) {{ return false; }}\n", 15 + over)
        yield f"methods 16{over:+}", one_node(methods=others)
        for freeze, limit in (("", 7), ("freeze true;\n", 6)):
            names = ", ".join(f"v{i}" for i in range(limit + over))
            label = f"variables {limit}{over:+} {freeze.strip()}"
            yield label, one_node(keeps=freeze, body=f"var {names}; return false;")
            second = f"method insert(k) {{ var {names}; return false; }}\n"
            yield f"{label} of the second", one_node(keeps=freeze, methods=second)
        yield f"locations 192{over:+}", one_node(body=f"var p; {'p = root; ' * (191 + over)}return false;")
        writes, locks = "atomic { write root.up = false; } " * (48 + over), "lock root; " * (48 + over)
        yield f"sites 48{over:+}", one_node(fields="flag up;\n", body=writes + "return false;")
        yield f"locks 48{over:+}", one_node(fields="lock;\n", body=locks + "return false;")
    names = ", ".join(f"v{i}" for i in range(1, 8))
    body = f"var {names}; atomic {{ with {names}; write root.p1 = null; }} return false;"
    for count in range(3, 7):
        for lock in ("", "lock;\n"):
            fields = numbered("flag f{i};\n", count) + numbered("ptr p{i} free;\n", 2) + lock
            yield f"facts with {count} flags {lock!r}", one_node(fields=fields, body=body)
    flags, pointers = numbered("flag f{i};\n", 7), numbered("ptr p{i} free;\n", 3)
    yield "two limits", one_node(fields=flags + pointers)
    yield "a limit and a broken rule", one_node(fields=flags, holds="x.other")
    yield "a limit and a bad byte", one_node(fields=flags, holds="false;#")


def sizes():
    for size in (65_536, BYTES_LIMIT - 1, BYTES_LIMIT, BYTES_LIMIT + 1, BYTES_LIMIT + 2, 140_000):
        base = one_node()
        yield f"{size} bytes by a comment", base + b"//" + b"a" * (size - len(base) - 2)
        yield f"{size} bytes of blanks", b" " * (size - len(base)) + base
        yield f"{size} bytes by a name", one_node(name="n" * (size - len(base) + 3))
        yield f"{size} bytes that begin no token", b"#" * size
        yield f"{size} bytes of one word", b"a" * size
        yield f"{size} bytes of braces", b"{" * size
    for length in (1, 2, 255, 256, 257, 4_095, 4_096, 4_097, 30_000):
        long = "n" + "a_9" * (length // 3)
        yield f"name of {length}", one_node(name=long)
        yield f"field of {length}", one_node(fields=f"flag {long};\n", holds=f"x.{long}")
        yield f"unknown field of {length}", one_node(fields=f"flag {long};\n", holds=f"x.{long}b")


def gaps(text):
    """Comments and blanks of each kind in each gap of a text, and every word split there."""
    places = [found.end() for found in LEXEME.finditer(text)]
    for place in places:
        for gap in (b" // c\n", b"//\n", b"\r\n\t ", b"/", b"//"):
            yield f"{gap!r} at {place}", text[:place] + gap + text[place:]


def every_byte(text):
    places = {
        "at the start": 0,
        "at the end": len(text),
        "between tokens": text.index(b";"),
        "in a word": text.index(b"tructure"),
        "in a gap": text.index(b"\n") + 1,
    }
    for byte in range(256):
        for label, place in places.items():
            yield f"byte {byte} {label}", text[:place] + bytes([byte]) + text[place:]
        yield f"byte {byte} in a comment", text + b"// " + bytes([byte]) + b" end"


def cuts(text):
    for place in range(len(text) + 1):
        yield f"cut at {place}", text[:place]
