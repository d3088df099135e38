"""Texts as tokens."""

import collections
import re

WORDS = set("""activity all and any array attach begin body by case channel common connect const default delay
detach disconnect div do downto else end export for from function if in individual init initialize ip mod module
modvar name not of or otherwise output packed priority procedure provided pure queue record release repeat same
set specification state stateset systemactivity then timescale to trans type until var when while with""".split())
LEFT_OUT = set("""exist external file forone forward goto label nil primitive process real suchthat systemprocess
terminate""".split())
TOKEN = re.compile(
    rb"""(?P<blank>[\t\n\f\r ]+|(?:\{|\(\*)(?:[^}*]|\*(?!\)))*(?:\}|\*\)))
    |(?P<ident>[A-Za-z][A-Za-z0-9_]*)|(?P<number>[0-9]+)|(?P<character>''''|'[\x20-\x26\x28-\x7e]')
    |(?P<symbol>\.\.\.|:=|<>|<=|>=|\.\.|\((?!\*)|[-+*=<>)\[\],;:.^@/?_])""",
    re.VERBOSE,
)


class Refused(Exception):
    """The text is no sentence."""


Token = collections.namedtuple("Token", "kind text at")


def tokens_of(text):
    """The tokens, each with the offset at which it begins."""
    found, at = [], 0
    while at < len(text):
        match = TOKEN.match(text, at)
        if not match:
            raise Refused
        kind, spelled = match.lastgroup, match.group().decode("latin-1")
        if kind != "blank":
            spelled = spelled if kind == "character" else spelled.lower()
            if kind == "ident" and spelled in WORDS or kind == "symbol":
                kind = "word"
            if spelled in LEFT_OUT or spelled in ("^", "@", "/", "...") or kind == "number" and len(spelled) > 18:
                raise Refused
            found.append(Token(kind, spelled, at))
        at = match.end()
    return found


def line_column(text, at):
    return text.count(b"\n", 0, at) + 1, at - (text.rfind(b"\n", 0, at) + 1) + 1
