"""The language as far as the tools need it: lexemes and reserved words."""

import re

LEXEME = re.compile(
    rb"(?P<gap>[ \t\r\n]+|//[^\n]*)|(?P<word>[A-Za-z0-9_]+)|(?P<symbol>==|!=|<=|&&|\|\||[{}():;,.=!<])"
)
WORD = re.compile(rb"[a-z][a-z0-9_]*|MIN|MAX")
SYMBOLS = b"{ } ( ) : ; , . = == ! != < <= && ||".split()
RESERVED = (
    b"structure flag ptr asc desc free lock unlock root start edge holds keep freeze method as var new atomic else "
    b"with test write if while loop break continue return true false null in key MIN MAX"
).split()
# Lexemes of one class may stand for each other in most places of the grammar.
CLASSES = [
    [b"root", b"MIN", b"MAX", b"null"],
    [b"==", b"!=", b"<", b"<="],
    [b"true", b"false", b"null"],
    [b"asc", b"desc", b"free"],
    [b"lock", b"unlock"],
    [b"break", b"continue"],
    [b"if", b"while"],
    [b"&&", b"||"],
    [b"insert", b"delete", b"contains", b"upkeep"],
]
BYTES_LIMIT = 131_072


def tokens_of(text):
    """The tokens of a text as byte strings, or None where a byte begins no token."""
    tokens, at = [], 0
    while at < len(text):
        found = LEXEME.match(text, at)
        if found is None or found["word"] and not WORD.fullmatch(found["word"]):
            return None
        if not found["gap"]:
            tokens.append(found[0])
        at = found.end()
    return tokens
