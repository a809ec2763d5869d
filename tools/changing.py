"""Changes of a text. Each takes the random numbers and a text, and gives another text."""

import re

from language import CLASSES, LEXEME, RESERVED, SYMBOLS

EVERY_BYTE = [bytes([byte]) for byte in range(256)]


def drop(rng, parts):
    place = rng.randrange(len(parts))
    return parts[:place] + parts[place + 1 :]


def double(rng, parts):
    place = rng.randrange(len(parts))
    return parts[: place + 1] + parts[place:]


def swap(rng, parts):
    first, second = rng.randrange(len(parts)), rng.randrange(len(parts))
    if rng.random() < 0.5:
        second = min(first + 1, len(parts) - 1)
    parts = list(parts)
    parts[first], parts[second] = parts[second], parts[first]
    return parts


def replace(rng, parts, others):
    place = rng.randrange(len(parts))
    return parts[:place] + [rng.choice(others)] + parts[place + 1 :]


def insert(rng, parts, others):
    place = rng.randrange(len(parts) + 1)
    return parts[:place] + [rng.choice(others)] + parts[place:]


def changed_parts(rng, parts, others):
    change = rng.choice((drop, double, swap, replace, insert))
    if not parts:
        return [rng.choice(others)]
    return change(rng, parts, others) if change in (replace, insert) else change(rng, parts)


def names_of(parts):
    words = {part for part in parts if re.fullmatch(rb"[a-z][a-z0-9_]*", part)}
    return sorted(words - set(RESERVED))


def changed_tokens(rng, text):
    """The lexemes changed, with the gaps between them kept."""
    parts = [found[0] for found in LEXEME.finditer(text)]
    names = names_of(parts) + [b"other"]
    others = rng.choice((names, SYMBOLS, RESERVED, names + SYMBOLS + RESERVED))
    return b"".join(changed_parts(rng, parts, others))


def renamed(rng, text):
    """One name in the place of another, where it stands once or everywhere."""
    parts = [found[0] for found in LEXEME.finditer(text)]
    names = names_of(parts)
    if len(names) < 2:
        return changed_tokens(rng, text)
    old, new = rng.sample(names, 2)
    places = [place for place, part in enumerate(parts) if part == old]
    if rng.random() < 0.8:
        places = [rng.choice(places)]
    for place in places:
        parts[place] = new
    return b"".join(parts)


def exchanged(rng, text):
    """One lexeme changed to another that may stand in its place; a name to a name or to a word for a node or key."""
    parts = [found[0] for found in LEXEME.finditer(text)]
    names = names_of(parts)
    places = [place for place, part in enumerate(parts) if part in names or any(part in others for others in CLASSES)]
    if not places:
        return changed_tokens(rng, text)
    place = rng.choice(places)
    fitting = [names + [b"key", b"other"]] * 2 + [CLASSES[0]] if parts[place] in names else []
    fitting += [others for others in CLASSES if parts[place] in others]
    parts[place] = rng.choice(rng.choice(fitting))
    return b"".join(parts)


def changed_lines(rng, text):
    lines = text.splitlines(keepends=True)
    return b"".join(changed_parts(rng, lines, lines or [b"\n"]))


def changed_bytes(rng, text):
    parts = [bytes([byte]) for byte in text]
    others = rng.choice((EVERY_BYTE, [b" ", b"\n", b"/", b"&", b"|", b"_", b"A", b"0", b"//"]))
    return b"".join(changed_parts(rng, parts, others))


def changed(rng, text):
    """A text after one to three changes of lexemes, names, lines or bytes."""
    changes = (exchanged,) * 4 + (renamed,) * 3 + (changed_lines,) * 2 + (changed_tokens,) * 2 + (changed_bytes,)
    for _ in range(rng.choice((1, 1, 1, 2, 3))):
        text = rng.choice(changes)(rng, text)
    return text
