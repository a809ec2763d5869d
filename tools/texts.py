"""The texts to try a prover on: worked ones, changed ones, made ones, and ones at a limit.

All are made from one seed, so that the same seed gives the same texts.
"""

import pathlib
import random

from changing import changed
from limits import cuts, every_byte, gaps, limits, nestings, one_node, sizes
from making import made_methods, made_single_returns


EXAMPLES = pathlib.Path(__file__).resolve().parent.parent / "examples"


def worked(folders):
    """The examples and the texts below the folders, each once."""
    files = [file for folder in [EXAMPLES, *folders] for file in sorted(folder.rglob("*")) if is_text(file)]
    found = {}
    for file in files:
        found.setdefault(file.read_bytes(), f"{file.parent.name}/{file.name}")
    return [(label, text) for text, label in found.items()]


def is_text(file):
    return file.is_file() and (file.suffix in (".plank", ".txt") or file.name == "stdin")


def cases(folders, seed, count):
    """All cases, as pairs of a label and a text: `count` changed ones, three quarters as many that are made from the
    grammar and partly changed, and the others."""
    rng = random.Random(seed)
    bases = worked(folders)
    yield from bases
    small = [(label, text) for label, text in bases if 0 < len(text) <= 4_096]
    for i in range(count):
        label, text = rng.choice(small)
        yield f"{label} changed {i}", changed(rng, text)
    for i in range(count // 4):
        yield f"single returns {i}", made_single_returns(rng)
        yield f"methods {i}", made_methods(rng)
    for i in range(count // 8):
        yield f"single returns changed {i}", changed(rng, made_single_returns(rng))
        yield f"methods changed {i}", changed(rng, made_methods(rng))
    short = one_node()
    for part in (nestings(), limits(), sizes(), gaps(short), every_byte(short), cuts(short)):
        yield from part
