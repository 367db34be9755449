"""Random bundles, each of its seed: without faults, and then changed at random places."""
import json
import random

VALUES = [None, True, False, 0, 1, 2, -1, 1.5, 10**30, "", [], {}, ["F0", "F1"], [5], {"name": "F0"}, ["v1"], ["p0"]]
CHECKS = [{"never": "l0 & l1", "of": "v1"}, {"deadlock": "v1"}, {"none": "x: T0"}, {"some": "x: T0 with x [k0] x"}, {"never": "Q", "of": "v1"}]
TEXTS = """|9A|true|with|name|e0|F0|F1|T0|T1|k0|n0|n1|v1|goal|strategy|solution|use|context|or|mandatory|Tp0|Tp1|ü|A & |F0 &|F0 @ Q|(F0|F0 F0
x: T0|x: T0, x: T0|v1: T0|x: Q|x: T0 with x [k0] x|x: T0 with x [k0+/^k0] x, not x [k0] x|with x|x: T0 with x [k0 x|x: T0 with x.a00 = 'u'
x: T0 with x [q] x|x: T0 with x.|a: T0, b: T0, c: T0, d: T0|{|}|{v1.name}|{#}|{p0.name}|{e.q}|{{}}|a{b""".replace("\n", "|").split("|")
LONG = ["x" * 64, "x" * 65, "a\nb", "\x7f", "t" * 129, "t" * 513, "F0 & " * 300 + "F0"]
LONG += ["x: T0 with " + ", ".join(["x [k0] x"] * 17), "x: T0 with x [" + "/".join(["k0"] * 130) + "] x"]
MEMBERS = """name parent kind type when attributes system from to under text each guard check template args undeveloped params nodes requires excludes
holds element initial labels states transitions""".split()


class Bundle:
    """A random bundle without faults and without solutions: `document`, and `draw`, the random numbers that go on."""

    def __init__(self, seed):
        self.draw = random.Random(seed)
        self.variables, self.earlier = 0, []
        line, model = self.line(), self.model()
        count = self.draw.choice([1, 1, 2, 3])
        templates = [self.template(number, number + 1 == count) for number in range(count)]
        title = self.draw.choice(["Row", "Zeile ü", ""])
        self.document = {"bundle": 1, "title": title, "line": line, "model": model, "templates": templates}

    def maybe(self, chance):
        return self.draw.random() < chance

    def line(self):
        features = [{"name": "F0"}]
        for number in range(1, self.draw.randrange(1, 7)):
            feature = {"name": f"F{number}", "parent": f"F{self.draw.randrange(number)}"}
            kind = self.draw.choice([None, "optional", "mandatory", "or", "alternative", "or", "alternative"])
            features.append(feature | ({"kind": kind} if kind else {}))
        self.features = [feature["name"] for feature in features]
        rules = []
        for _ in range(self.draw.choice([0, 0, 0, 1, 2])):
            member = self.draw.choice(["requires", "excludes", "holds"])
            rules.append({member: self.condition() if member == "holds" else [self.draw.choice(self.features) for _ in range(2)]})
        return {"features": features, "rules": rules} if rules or self.maybe(0.3) else {"features": features}

    def condition(self, depth=2):
        if depth == 0 or self.maybe(0.4):
            return self.draw.choice([*self.features, "true", "false"])
        operator, space = self.draw.choice(["!", "&", "|", "=>", "<=>"]), self.draw.choice([" ", ""])
        if operator == "!":
            return f"!({self.condition(depth - 1)})"
        return f"({self.condition(depth - 1)}{space}{operator}{space}{self.condition(depth - 1)})"

    def with_condition(self, item, chance):
        return item | ({"when": self.condition()} if self.maybe(chance) else {})

    def model(self):
        self.types, self.parents, self.attributes = [], {}, {}
        types = []
        for number in range(self.draw.randrange(1, 4)):
            name, made = f"T{number}", {"name": f"T{number}"}
            if number and self.maybe(0.5):
                made["parent"] = self.draw.choice(self.types)
            own = [f"a{number}{place}" for place in range(self.draw.randrange(3))]
            if own or self.maybe(0.3):
                made["attributes"] = own
            self.parents[name] = made.get("parent")
            self.attributes[name] = self.attributes.get(made.get("parent"), []) + own
            self.types.append(name)
            types.append(made)
        kinds = [{"name": f"k{number}", "from": self.draw.choice(self.types), "to": self.draw.choice(self.types)} for number in range(self.draw.randrange(1, 4))]
        self.kinds = [kind["name"] for kind in kinds]
        elements = []
        for number in range(self.draw.randrange(7)):
            of = self.draw.choice(self.types)
            made = self.with_condition({"name": f"e{number}", "type": of}, 0.7)
            if self.attributes[of] or self.maybe(0.2):
                made["attributes"] = {name: self.draw.choice(["u", "v", ""]) for name in self.attributes[of]}
            elements.append(made)
        links = []
        for _ in range(self.draw.randrange(14)):
            kind = self.draw.choice(kinds)
            ends = [[it["name"] for it in elements if self.fits(it["type"], kind[end])] for end in ("from", "to")]
            if all(ends):
                link = {"kind": kind["name"], "from": self.draw.choice(ends[0]), "to": self.draw.choice(ends[1])}
                links.append(self.with_condition(link, 0.6))
        return {"types": types, "kinds": kinds, "elements": elements, "links": links}

    def fits(self, of, wanted):
        while of is not None and of != wanted:
            of = self.parents[of]
        return of is not None

    def path(self, depth=2):
        steps = []
        for _ in range(self.draw.choice([1, 1, 2, 3])):
            is_nested = depth > 0 and self.maybe(0.3)
            atom = f"({self.path(depth - 1)})" if is_nested else self.draw.choice(["", "^"]) + self.draw.choice(self.kinds)
            steps.append(atom + self.draw.choice(["", "", "+", "++"]))
        text = steps[0]
        for step in steps[1:]:
            text += self.draw.choice(["/", "|", " | "]) + step
        return text

    def query(self, scope, is_asked):
        """A query over a scope, with at least one new variable where it is asked, and the new variables."""
        new = []
        for _ in range(self.draw.choice([1, 1, 1, 2] if is_asked else [0, 0, 1, 2])):
            self.variables += 1
            new.append((f"v{self.variables}", self.draw.choice(self.types)))
        known, constraints = scope + new, []
        for _ in range(self.draw.choice([0, 1, 1, 2]) if known else 0):
            (one, of), (other, _) = self.draw.choice(known), self.draw.choice(known)
            if self.maybe(0.7):
                constraints.append(f"{self.draw.choice(['', '', 'not '])}{one} [{self.path()}] {other}")
            elif self.attributes[of]:
                constraints.append(f"{one}.{self.draw.choice(self.attributes[of])} {self.draw.choice(['=', '!='])} '{self.draw.choice(['u', 'v', ''])}'")
        text = ", ".join(f"{name}: {of}" for name, of in new)
        return " ".join(part for part in (text, "with " + ", ".join(constraints) if constraints else "") if part), new

    def text(self, scope, is_counted):
        text = self.draw.choice(["Safe", "A", "b {{x}} ", "ü", '"q\\'])
        for _ in range(self.draw.choice([0, 1, 1, 2])):
            holes = ["{#}"] if is_counted else []
            if scope:
                name, of = self.draw.choice(scope)
                holes += ["{%s.%s}" % (name, attribute) for attribute in ["name", *self.attributes[of][:1]]]
            text += self.draw.choice([" ", ""]) + self.draw.choice(holes) if holes else ""
        return text

    def template(self, number, is_last):
        self.variables = 0
        params = [] if is_last else [(f"p{place}", self.draw.choice(self.types)) for place in range(self.draw.choice([0, 1, 2]))]
        nodes, scopes = [{"id": "n0", "kind": "goal", "text": self.text(params, False)}], [(params, params)]
        for place in range(1, self.draw.randrange(1, 8)):
            kind = self.draw.choice(["goal", "strategy", "strategy", "context", "assumption", "justification", *["use", "use"][: 2 * bool(number)]])
            above = self.draw.choice([it for it, node in enumerate(nodes) if node["kind"] == "goal" or (node["kind"] == "strategy" and kind != "strategy")])
            scope = scopes[above][0 if kind in ("context", "assumption", "justification") else 1]
            node, below = {"id": f"n{place}", "kind": kind, "under": nodes[above]["id"]}, scope
            if kind == "use":
                uses = [(name, self.arguments(wanted, scope)) for name, wanted in self.earlier]
                uses = [it for it in uses if it[1] is not None]
                if not uses:
                    continue
                node["template"], arguments = self.draw.choice(uses)
                if arguments or self.maybe(0.3):
                    node["args"] = arguments
            else:
                is_counted = kind == "strategy" and self.maybe(0.7)
                if is_counted:
                    node["each"], new = self.query(scope, True)
                    below = scope + new
                node["text"] = self.text(scope, is_counted)
            if self.maybe(0.35):
                node["guard"] = self.query(scope, False)[0]
            nodes.append(node)
            scopes.append((scope, below))
        developed = {node.get("under") for node in nodes if node["kind"] in ("goal", "strategy", "use")}
        for node in nodes:
            if node["kind"] in ("goal", "strategy") and node["id"] not in developed and self.maybe(0.4):
                node["undeveloped"] = True
        made = {"name": f"Tp{number}", "nodes": nodes} | ({"params": [{"name": name, "type": of} for name, of in params]} if params else {})
        self.earlier.append((made["name"], params))
        return made

    def arguments(self, wanted, scope):
        """Variables in scope for the parameters, or None where one has none."""
        choices = [[name for name, of in scope if self.fits(of, param)] for _, param in wanted]
        return [self.draw.choice(names) for names in choices] if all(choices) else None

    def add_systems(self):
        """Marks a type, and gives its elements small systems."""
        model = self.document["model"]
        marked = self.draw.choice(model["types"])
        marked["system"], model["labels"] = True, ["l0", "l1"]
        model["systems"] = []
        for element in model["elements"]:
            if self.fits(element["type"], marked["name"]):
                states = [{"name": f"s{it}", "initial": it == 0, "labels": self.draw.sample(["l0", "l1"], self.draw.randrange(3))} for it in range(3)]
                ends = lambda: f"s{self.draw.randrange(3)}"
                transitions = [self.with_condition({"from": ends(), "to": ends(), "action": "go"}, 0.5) for _ in range(3)]
                model["systems"].append({"element": element["name"], "states": states, "transitions": transitions})

    def add_solution(self):
        """Puts a solution with some check under a goal, if one is free for it."""
        template = self.draw.choice(self.document["templates"])
        goals = [node["id"] for node in template["nodes"] if node["kind"] == "goal" and not node.get("undeveloped")]
        if goals:
            template["nodes"].append({"id": "e", "kind": "solution", "under": self.draw.choice(goals), "text": "Check", "check": self.draw.choice(CHECKS)})

    def change(self):
        """Changes the document at one place."""
        path = self.draw.choice([it for it in places_in(self.document) if it])
        holder, last, chance = found_at(self.document, path[:-1]), path[-1], self.draw.random()
        found = holder[last]
        if isinstance(found, str) and chance < 0.6:
            holder[last] = self.changed(found)
        elif chance < 0.3:
            holder[last] = self.draw.choice(VALUES)
        elif chance < 0.5:
            holder.pop(last)
        elif isinstance(holder, list) and chance < 0.75:
            holder.insert(self.draw.randrange(len(holder) + 1), json.loads(json.dumps(found)))
        elif isinstance(holder, list):
            other = self.draw.randrange(len(holder))
            holder[other], holder[last] = found, holder[other]
        else:
            holder[self.draw.choice(MEMBERS)] = self.draw.choice([*VALUES, *TEXTS, *CHECKS])

    def changed(self, text):
        chance, place = self.draw.random(), self.draw.randrange(len(text) + 1)
        if chance < 0.5:
            return self.draw.choice([*TEXTS, *LONG]).replace("@", "|")
        if chance < 0.7:
            return text[:place] + self.draw.choice("&|()[]+^/.,:={}'# !q") + text[place + self.draw.randrange(2) :]
        if chance < 0.85:
            return text[:place]
        return text + self.draw.choice([" ", " &", ", x", " with", " [", "+", "{#}", "{v1.name}", "}"])


def places_in(value, path=()):
    yield path
    items = value.items() if isinstance(value, dict) else enumerate(value) if isinstance(value, list) else ()
    for key, inner in items:
        yield from places_in(inner, (*path, key))


def found_at(value, path):
    for key in path:
        value = value[key]
    return value


def without_nulls(value):
    """The document as it is read: null members of tables are absent."""
    if isinstance(value, dict):
        return {name: without_nulls(member) for name, member in value.items() if member is not None}
    return [without_nulls(item) for item in value] if isinstance(value, list) else value


def toml(bundle):
    return "".join(f"{name} = {toml_value(value)}\n" for name, value in bundle.items())


def toml_value(value):
    if isinstance(value, dict):
        return "{" + ", ".join(f"{name} = {toml_value(member)}" for name, member in value.items()) + "}"
    if isinstance(value, list):
        return "[" + ", ".join(map(toml_value, value)) + "]"
    return json.dumps(value, ensure_ascii=False)
