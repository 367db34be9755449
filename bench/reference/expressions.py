"""Expressions over names: their tokens, their first fault, their truth at a world."""
import re

RESERVED = {"true", "false", "with", "not", "name"}
WORD = rb"[A-Za-z][A-Za-z0-9_]*"
TOKEN = re.compile(WORD + rb"|<=>|=>|[!&|()]")
MOST_TOKENS = 512


def is_name(text):
    return re.fullmatch(r"[A-Za-z][A-Za-z0-9_]{0,63}", text) is not None and text not in RESERVED


def tokens(text, pattern):
    """The tokens of a text as (byte, token), ended by (byte, None) where a byte starts none; and the text's length in bytes."""
    data, found, at = text.encode(), [], 0
    while at < len(data):
        if data[at : at + 1] == b" ":
            at += 1
            continue
        match = pattern.match(data, at)
        if match is None:
            found.append((at, None))
            break
        found.append((at, match.group().decode()))
        at = match.end()
    return found, len(data)


def first_fault(text, names):
    """The rule that an expression breaks first, 11 (form) or 12 (unknown name), with its byte; None where it breaks none."""
    found, end = tokens(text, TOKEN)
    depth, wants_operand = 0, True
    for number, (at, token) in enumerate(found):
        if number == MOST_TOKENS or token is None:
            return 11, at
        if wants_operand and token == "!":
            continue
        if wants_operand and token == "(":
            depth += 1
        elif wants_operand and token in ("true", "false"):
            wants_operand = False
        elif wants_operand and is_name(token):
            if token not in names:
                return 12, at
            wants_operand = False
        elif not wants_operand and token == ")" and depth > 0:
            depth -= 1
        elif not wants_operand and token in ("&", "|", "=>", "<=>"):
            wants_operand = True
        else:
            return 11, at
    return (11, end) if wants_operand or depth > 0 else None


def parse(text, places):
    """An expression without a fault, as a function from worlds (tuples of truth values) to truth; places gives each name its place."""
    left = [token for _, token in tokens(text, TOKEN)[0]]

    def next_is(token):
        return bool(left) and left[0] == token

    def atom():
        token = left.pop(0)
        if token == "(":
            inner = same()
            left.pop(0)
            return inner
        if token in ("true", "false"):
            return lambda world: token == "true"
        return lambda world: world[places[token]]

    def negation():
        if not next_is("!"):
            return atom()
        left.pop(0)
        inner = negation()
        return lambda world: not inner(world)

    def grouped_left(operand, operator, truth):
        result = operand()
        while next_is(operator):
            left.pop(0)
            result = (lambda a, b: lambda world: truth(a(world), b(world)))(result, operand())
        return result

    def conjunction():
        return grouped_left(negation, "&", lambda a, b: a and b)

    def disjunction():
        return grouped_left(conjunction, "|", lambda a, b: a or b)

    def implication():
        premise = disjunction()
        if not next_is("=>"):
            return premise
        left.pop(0)
        conclusion = implication()
        return lambda world: not premise(world) or conclusion(world)

    def same():
        return grouped_left(implication, "<=>", lambda a, b: a == b)

    return same()
