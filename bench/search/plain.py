#!/usr/bin/env python3
"""Prints the search and its benchmark in plain Rust: the text of crates/plank_search and crates/bench_search
without contracts, over Rust's own vectors, as one file for rustc.

A module becomes a module; `main.rt` of the benchmark becomes the root. What has no counterpart in Rust
(contracts, ghost items, models, tactics, the memory that is asked for) is left out, and nothing else is changed.
"""
import pathlib
import re
import sys

ROOT = pathlib.Path(__file__).resolve().parent.parent.parent / "crates"
SEARCH = ROOT / "plank_search" / "src"
BENCH = ROOT / "bench_search" / "src"

# What the crates below give, in plain Rust.
BELOW = """
mod below {
    #[derive(Clone, Copy)]
    pub struct Global;

    #[derive(Clone, Copy, Debug, PartialEq, Eq)]
    pub struct OutOfMemory;

    #[derive(Debug)]
    pub struct Items<T> {
        items: Vec<T>,
    }

    impl<T> Items<T> {
        pub fn from_vec(items: Vec<T>) -> Items<T> {
            Items { items }
        }

        pub fn as_slice(&self) -> &[T] {
            self.items.as_slice()
        }

        pub fn len(&self) -> usize {
            self.items.len()
        }
    }
}
"""


def end_of(text, start, opening, closing):
    """The place after the bracket that closes the one at `start`."""
    depth = 0
    for at in range(start, len(text)):
        depth += (text[at] == opening) - (text[at] == closing)
        if depth == 0:
            return at + 1
    raise SystemExit(f"no {closing} closes the {opening} at {start}")


def without_blocks(text, pattern):
    """The text without each match of the pattern and the block in braces that follows it."""
    while found := re.search(pattern, text):
        text = text[: found.start()] + text[end_of(text, text.index("{", found.end() - 1), "{", "}") :]
    return text


def with_calls(text, call, plain):
    """The text with each call that begins so, its `?` included, put as `plain` has it; {} is what it is given."""
    while (at := text.find(call)) >= 0:
        end = end_of(text, at + len(call) - 1, call[-1], {"(": ")", "[": "]"}[call[-1]])
        given = text[at + len(call) : end - 1]
        text = text[:at] + plain.format(given.strip().rstrip(",")) + text[end:].removeprefix("?")
    return text


def without_proof(text):
    """The text without contracts, ghost items, models and tactics."""
    text = re.sub(r"(?ms)^[ \t]*ghost [^;{]*(\{[^;]*\})?;\n", "", text)
    text = without_blocks(text, r"(?m)^impl[^\n{]* Model for [^\n{]*\{")
    text = without_blocks(text, r"(?m)\n[ \t]*(requires|ensures|decreases)\b[^\n{]*\{")
    text = re.sub(r"(?m)^[ \t]*#!?\[tactic\(.*\)\]\n", "", text)
    text = re.sub(r"#\[derive\(Drop\)\]\n", "", text)
    return text.replace(", Drop)]", ")]")


def over_vectors(text):
    """The text over Rust's own vectors, which take what memory they want."""
    text = re.sub(r"Vec::from_slice\(\s*alloc,\s*", "Vec::from_slice(", text)
    text = with_calls(text, "Vec::from_slice(", "<[_]>::to_vec({})")
    text = re.sub(r"Vec::with_capacity\(\s*alloc,\s*", "Vec::of_capacity(", text)
    text = with_calls(text, "Vec::of_capacity(", "Vec::with_capacity({})")
    text = re.sub(r"vec!\[in alloc; ([^\[\]]*)\]\?", r"vec![\1]", text)
    return text.replace("Vec::new(alloc)", "Vec::new()")


def plain(path):
    text = without_proof(path.read_text())
    text = over_vectors(text)
    text = pushes(text)
    text = re.sub(r"\buse (plank_base|sqlite_items|std::alloc)::", "use crate::below::", text)
    text = re.sub(r"(?m)^use std::marker::Model;\n", "", text)
    text = re.sub(r"(?m)^use std::rt::Runtime;\n", "", text)
    return text.replace("use plank_search::", "use crate::")


def pushes(text):
    """The text with `push` as Rust's vectors have it, without an answer."""
    at = 0
    while (at := text.find(".push(", at)) >= 0:
        end = end_of(text, at + len(".push"), "(", ")")
        text = text[:end] + text[end:].removeprefix("?")
        at += 1
    return text


def root():
    """The benchmark's own text, over Rust's clock and output."""
    text = plain(BENCH / "main.rt")
    text = re.sub(r"(?m)^(mod systems;|use crate::\{.*Session.*\};)\n", "", text)
    text = text.replace("rt: HostRuntime", "").replace("env::args(&rt)?", "env::args()")
    text = text.replace("Instant::now(&rt)?", "Instant::now()").replace("elapsed(&rt)?", "elapsed()")
    text = text.replace("rt.alloc()", "Global").replace("&rt, ", "").replace("print_report<R: Runtime>", "print_report")
    text = re.sub(r"\s*rt: &R,", "", text)
    text = re.sub(r"(println!\()rt; ", r"\1", text)
    # Output answers nothing: as a statement, and as the arm of a match.
    text = re.sub(r"(println!\([^;]*\))\?;", r"\1;", text)
    return re.sub(r"=> (println!\(.*\)),", r"=> Ok(\1),", text)


def modules():
    names = re.findall(r"(?m)^mod (\w+);", (SEARCH / "lib.rt").read_text())
    uses = re.findall(r"(?m)^pub use [^;]*;", (SEARCH / "lib.rt").read_text())
    for name in names:
        if name != "tests":
            yield f"mod {name} {{\n{plain(SEARCH / f'{name}.rt')}}}\n"
    yield f"mod systems {{\n{plain(BENCH / 'systems.rt')}}}\n"
    yield "\n".join(uses) + "\n"


if __name__ == "__main__":
    sys.stdout.write("#![allow(warnings)]\n" + re.sub(r"(?m)^//!.*\n", "", root()) + BELOW + "".join(modules()))
