"""Queries over paths: their tokens, their first fault, their tree."""
import re
from expressions import WORD, is_name, tokens

TOKEN = re.compile(WORD + rb"|!=|'[^']*'|[:,\[\]().=|/+^]")
MOST_TOKENS, MOST_VARIABLES, MOST_CONSTRAINTS = 256, 3, 16


class Fault(Exception):
    """A query's first fault, at this byte."""

    def __init__(self, at):
        self.at = at


class Query:
    """A query over a scope (pairs of variable and type), with its new variables and its constraints:
    ("walk", negated, from, path, to) or ("test", variable, attribute, is_equal, text)."""

    def __init__(self, text, scope, types, kinds, attributes):
        self.found, self.end = tokens(text, TOKEN)
        self.place, self.scope, self.types, self.kinds, self.attributes = 0, scope, types, kinds, attributes
        self.variables, self.constraints = [], []
        if self.token() not in (None, "with"):
            self.read_variables()
        if self.token() == "with":
            self.take("with")
            self.read_constraints()

    def token(self):
        """The next token, or None at the end."""
        if self.place == len(self.found):
            return None
        at, token = self.found[self.place]
        if self.place == MOST_TOKENS or token is None:
            raise Fault(at)
        return token

    def fault(self):
        raise Fault(self.found[self.place][0] if self.place < len(self.found) else self.end)

    def take(self, token):
        if self.token() != token:
            self.fault()
        self.place += 1

    def type_of(self, name):
        return next((of for known, of in self.variables + self.scope if known == name), None)

    def take_word(self, known):
        """A name among the known ones."""
        token = self.token()
        if token is None or not is_name(token) or token not in known:
            self.fault()
        self.place += 1
        return token

    def take_variable(self):
        return self.take_word([name for name, _ in self.variables + self.scope])

    def read_variables(self):
        while True:
            name = self.token()
            if name is None or not is_name(name):
                self.fault()
            is_new = self.place + 1 < min(len(self.found), MOST_TOKENS) and self.found[self.place + 1][1] == ":"
            if is_new and (len(self.variables) == MOST_VARIABLES or self.type_of(name) is not None):
                self.fault()
            self.place += 1
            self.take(":")
            self.variables.append((name, self.take_word(self.types)))
            if self.token() in (None, "with"):
                return
            self.take(",")

    def read_constraints(self):
        while True:
            if self.token() is None or len(self.constraints) == MOST_CONSTRAINTS:
                self.fault()
            self.constraints.append(self.constraint())
            if self.token() is None:
                return
            self.take(",")

    def constraint(self):
        negated = self.token() == "not"
        if negated:
            self.take("not")
        variable = self.take_variable()
        if negated or self.token() == "[":
            self.take("[")
            path = self.path()
            self.take("]")
            return "walk", negated, variable, path, self.take_variable()
        self.take(".")
        attribute = self.take_word(self.attributes(self.type_of(variable)))
        comparison = self.token()
        if comparison not in ("=", "!="):
            self.fault()
        self.place += 1
        quoted = self.token()
        if quoted is None or not quoted.startswith("'"):
            self.fault()
        self.place += 1
        return "test", variable, attribute, comparison == "=", quoted[1:-1]

    def path(self):
        result = self.sequence()
        while self.token() == "|":
            self.take("|")
            result = "either", result, self.sequence()
        return result

    def sequence(self):
        result = self.step()
        while self.token() == "/":
            self.take("/")
            result = "then", result, self.step()
        return result

    def step(self):
        if self.token() == "(":
            self.take("(")
            result = self.path()
            self.take(")")
        elif self.token() == "^":
            self.take("^")
            result = "back", self.take_word(self.kinds)
        else:
            result = "along", self.take_word(self.kinds)
        while self.token() == "+":
            self.take("+")
            result = "chain", result
        return result
