"""What the program is to say of a text."""

from .modules import Modules
from .reader import Reader
from .tokens import Refused, line_column, tokens_of

TEXTS = {
    1: "unknown name", 2: "declared twice", 3: "not seen here", 4: "wrong sort", 5: "number too large",
    6: "wrong bounds", 7: "too large", 8: "wrong kind", 9: "wrong number", 10: "not writable",
    11: "not in a function", 12: "wrong direction", 13: "delay not alone", 14: "no first state",
    15: "wrong attribute", 16: "wrong body", 17: "wrong link", 18: "case twice",
}


def checked_tokens(tokens):
    """The checker that has read a list of tokens."""
    return Modules(Reader(tokens).specification())


def checked(text):
    """The checker that has read a text."""
    return checked_tokens(tokens_of(text))


def judged(text):
    """The status and the report, or None where the text is no sentence."""
    try:
        checker = checked(text)
    except Refused:
        return None
    if not checker.pairs:
        counts = f"{checker.bodies} bodies, {checker.transitions} transitions, {checker.ports} ports"
        return 0, f"ok: {counts}"
    at, rule = min(checker.pairs)
    line, column = line_column(text, at)
    return 2, f"specification:{line}:{column}: rule {rule}: {TEXTS[rule]}"
