"""The lifted case of a bundle without faults and without solutions, and the texts of its products.

A condition is the set of worlds where it holds, as the bits of a number: bit i is the i-th world, worlds in lexicographic
order, false before true. So a line of n features takes numbers of 2^n bits: small lines alone are meant.
"""
import itertools
import json

import expressions
from queries import Query

ANNOTATIONS = ("context", "assumption", "justification")
LETTERS = {"goal": "G", "strategy": "S", "solution": "Sn", "context": "C", "assumption": "A", "justification": "J"}


class Line:
    """A feature model, told rule by rule."""

    def __init__(self, line):
        features = line["features"]
        self.names = [feature["name"] for feature in features]
        self.places = {name: place for place, name in enumerate(self.names)}
        self.parents = [self.places[feature["parent"]] if "parent" in feature else None for feature in features]
        self.kinds = [feature.get("kind", "optional") for feature in features]
        self.rules = [self.rule(rule) for rule in line.get("rules", [])]
        self.worlds = list(itertools.product([False, True], repeat=len(features)))

    def rule(self, rule):
        if "holds" in rule:
            return expressions.parse(rule["holds"], self.places)
        one, other = [self.places[name] for name in rule.get("requires", rule.get("excludes"))]
        if "requires" in rule:
            return lambda world: not world[one] or world[other]
        return lambda world: not (world[one] and world[other])

    def members(self, parent, kind):
        return [place for place in range(1, len(self.names)) if self.parents[place] == parent and self.kinds[place] == kind]

    def is_valid(self, world):
        below = range(1, len(world))
        groups = [
            any(world[place] for place in self.members(parent, "or") or [parent])
            and sum(world[place] for place in self.members(parent, "alternative") or [parent]) == 1
            for parent in range(len(world))
            if world[parent]
        ]
        return (
            world[0]
            and all(world[self.parents[place]] for place in below if world[place])
            and all(world[place] for place in below if self.kinds[place] == "mandatory" and world[self.parents[place]])
            and all(groups)
            and all(rule(world) for rule in self.rules)
        )

    def where(self, truth):
        """The worlds at which this holds."""
        return sum(1 << number for number, world in enumerate(self.worlds) if truth(world))

    def when(self, item):
        return self.where(expressions.parse(item.get("when", "true"), self.places))


class Node:
    def __init__(self, kind, when, key, undeveloped):
        self.kind, self.when, self.key, self.undeveloped = kind, when, key, undeveloped
        self.text, self.branches = [], []


class Case:
    """The lifted case: nodes in order, relations as (from, to, kind, when)."""

    def __init__(self, bundle):
        self.title, self.line, self.templates = bundle["title"], Line(bundle["line"]), bundle["templates"]
        self.valid = self.line.where(self.line.is_valid)
        model = bundle.get("model", {})
        self.types = {of["name"]: of for of in model.get("types", [])}
        self.kinds = [kind["name"] for kind in model.get("kinds", [])]
        self.elements = model.get("elements", [])
        places = {element["name"]: place for place, element in enumerate(self.elements)}
        self.there = [self.line.when(element) for element in self.elements]
        self.links = []
        for link in model.get("links", []):
            one, other = places[link["from"]], places[link["to"]]
            self.links.append((link["kind"], one, other, self.line.when(link) & self.there[one] & self.there[other]))
        self.nodes, self.relations = [], []
        self.place_node(self.templates[-1], 0, {}, [], self.valid, "0", None)

    def fits(self, of, wanted):
        while of is not None and of != wanted:
            of = self.types[of].get("parent")
        return of is not None

    def attributes(self, of):
        inherited = self.attributes(self.types[of]["parent"]) if "parent" in self.types[of] else []
        return inherited + self.types[of].get("attributes", [])

    def relation(self, path):
        """The pairs of elements that walks of the path join, each with its condition."""
        form = path[0]
        if form in ("along", "back"):
            pairs = [((one, other) if form == "along" else (other, one), when) for kind, one, other, when in self.links if kind == path[1]]
        elif form == "either":
            pairs = [*self.relation(path[1]).items(), *self.relation(path[2]).items()]
        elif form == "then":
            pairs = joined(self.relation(path[1]), self.relation(path[2]))
        else:
            step = self.relation(path[1])
            whole, known = step, None
            while whole != known:
                known, whole = whole, united([*whole.items(), *joined(whole, step)])
            pairs = whole.items()
        return united(pairs)

    def answers(self, text, bound, scope, under):
        """The answers of a query within a condition, in order: the elements, where they answer, and the variables that they add to the scope."""
        query = Query(text, scope, self.types, self.kinds, self.attributes)
        relations = [self.relation(it[3]) if it[0] == "walk" else None for it in query.constraints]
        found = []
        for elements in itertools.product(range(len(self.elements)), repeat=len(query.variables)):
            given = {**bound, **{name: element for (name, _), element in zip(query.variables, elements)}}
            when = under
            for (_, of), element in zip(query.variables, elements):
                when &= self.there[element] if self.fits(self.elements[element]["type"], of) else 0
            for it, relation in zip(query.constraints, relations):
                if it[0] == "walk":
                    walks = relation.get((given[it[2]], given[it[4]]), 0)
                    when &= ~walks if it[1] else walks
                elif when:
                    is_equal = self.elements[given[it[1]]]["attributes"][it[2]] == it[4]
                    when &= -1 if is_equal == it[3] else 0
            if when:
                found.append((elements, when, given, scope + query.variables))
        return found

    def place_node(self, template, number, bound, scope, under, key, above):
        """Adds the instance of a node of a template, and of what stands under it."""
        node = template["nodes"][number]
        if "guard" in node:
            guarded = 0
            for _, when, _, _ in self.answers(node["guard"], bound, scope, under):
                guarded |= when
            under = guarded
        if not under:
            return
        if node["kind"] == "use":
            used = next(it for it in self.templates if it["name"] == node["template"])
            given = list(zip(used.get("params", []), node.get("args", [])))
            inner = {param["name"]: bound[argument] for param, argument in given}
            self.place_node(used, 0, inner, [(param["name"], param["type"]) for param, _ in given], under, key, above)
            return
        made, place = Node(node["kind"], under, key, node.get("undeveloped", False)), len(self.nodes)
        self.nodes.append(made)
        if above is not None:
            self.relations.append((above, place, "context" if made.kind in ANNOTATIONS else "supported", under))
        rows = self.answers(node["each"], bound, scope, under) if "each" in node else None
        made.branches = [when for _, when, _, _ in rows or []]
        made.text = self.parts(node["text"], bound)
        below = [(it, child["kind"] in ANNOTATIONS) for it, child in enumerate(template["nodes"]) if child.get("under") == node["id"]]
        for child, is_annotation in below:
            if is_annotation:
                self.place_node(template, child, bound, scope, under, f"{key}/{child}", place)
        for elements, when, given, inner in rows if rows is not None else [(None, under, bound, scope)]:
            for child, is_annotation in below:
                if not is_annotation:
                    front = "" if elements is None else ".".join(map(str, elements)) + ":"
                    self.place_node(template, child, given, inner, when, f"{key}/{front}{child}", place)

    def parts(self, text, bound):
        """The text of a node: words, and 0 for the number of answers."""
        parts, at = [""], 0
        while at < len(text):
            if text[at : at + 2] in ("{{", "}}"):
                parts[-1] += text[at]
                at += 2
            elif text[at] == "{":
                hole = text[at + 1 : text.index("}", at)]
                at += len(hole) + 2
                if hole == "#":
                    parts += [0, ""]
                else:
                    variable, attribute = hole.split(".")
                    element = self.elements[bound[variable]]
                    parts[-1] += element["name"] if attribute == "name" else element["attributes"][attribute]
            else:
                parts[-1] += text[at]
                at += 1
        return [part for part in parts if part != ""]

    def document(self):
        """The case file, to the byte."""
        table = Table(len(self.line.names))
        valid, nodes = table.identifier(self.valid), []
        for node in self.nodes:
            made = {"key": node.key, "kind": node.kind, "text": node.text, "when": table.identifier(node.when)}
            if node.branches:
                made["branches"] = [table.identifier(when) for when in node.branches]
            if node.undeveloped:
                made["undeveloped"] = True
            nodes.append(made)
        relations = [{"from": one, "kind": kind, "to": other, "when": table.identifier(when)} for one, other, kind, when in self.relations]
        case = {"case": 1, "features": self.line.names, "nodes": nodes, "relations": relations, "systems": [], "table": table.rows}
        case |= {"title": self.title, "valid": valid}
        return json.dumps(case, sort_keys=True, separators=(",", ":"), ensure_ascii=False) + "\n"

    def text(self, number):
        """The text of the product at the world of this number, or None where it is no product."""
        if not self.valid >> number & 1:
            return None
        names = [name for name, is_true in zip(self.line.names, self.line.worlds[number]) if is_true]
        lines, identifiers, counts = [f"case {self.title}", " ".join(["with", *names])], {}, {}
        for place, node in enumerate(self.nodes):
            if node.when >> number & 1:
                counts[node.kind] = counts.get(node.kind, 0) + 1
                identifiers[place] = f"{LETTERS[node.kind]}{counts[node.kind]}"
        for place, identifier in identifiers.items():
            node = self.nodes[place]
            answers = sum(when >> number & 1 for when in node.branches)
            status = "" if node.kind in ANNOTATIONS else " open"
            lines.append(f"{identifier} {node.kind}{status}{' undeveloped' if node.undeveloped else ''}")
            lines.append("  " + "".join(str(answers) if part == 0 else part for part in node.text))
            for kind, words in (("context", "in context of"), ("supported", "supported by")):
                targets = [identifiers[to] for one, to, of, when in self.relations if one == place and of == kind and when >> number & 1]
                if targets:
                    lines.append(f"  {words} {' '.join(targets)}")
        return "".join(line + "\n" for line in lines)


class Table:
    """The rows of the decision diagrams of sets of worlds, in the order in which a walk first leaves them."""

    def __init__(self, features):
        self.features, self.rows, self.known = features, [], {}

    def identifier(self, worlds, variable=0):
        size = 1 << (self.features - variable)
        if worlds in (0, (1 << size) - 1):
            return 1 if worlds else 0
        low, high = worlds & ((1 << size // 2) - 1), worlds >> size // 2
        if low == high:
            return self.identifier(low, variable + 1)
        row = [variable, self.identifier(low, variable + 1), self.identifier(high, variable + 1)]
        if tuple(row) not in self.known:
            self.known[tuple(row)] = len(self.rows) + 2
            self.rows.append(row)
        return self.known[tuple(row)]


def joined(one, other):
    """Walks of the first and then of the second."""
    onward = {}
    for (start, end), when in other.items():
        onward.setdefault(start, []).append((end, when))
    return [((start, end), when & more) for (start, middle), when in one.items() for end, more in onward.get(middle, [])]


def united(pairs):
    """Each pair with the condition of any of its walks, without those that have none."""
    found = {}
    for pair, when in pairs:
        found[pair] = found.get(pair, 0) | when
    return {pair: when for pair, when in found.items() if when}
