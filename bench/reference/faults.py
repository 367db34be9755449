"""The first fault of a bundle: of the places that break a rule the first one, and there the least rule.

The limits on the sizes of lists are told too. B30 (no world is valid) is left to the line's worlds.
"""
import re

import expressions
import queries
from expressions import WORD, is_name

ANNOTATIONS = ("context", "assumption", "justification")
UNDER = {"goal": ("goal", "strategy"), "use": ("goal", "strategy"), "strategy": ("goal",), "solution": ("goal",)}
KINDS = (*UNDER, *ANNOTATIONS)
LINE_KINDS = ("mandatory", "optional", "or", "alternative")
HOLE = re.compile(rb"\{(" + WORD + rb")\.(" + WORD + rb")\}")
MOST_HOLES = 8


class Fault(Exception):
    """The first fault, as a refusal prints it."""


def stop(part, item, sub, broken):
    """Ends at a place that breaks rules: of pairs of rule and byte the least rule counts, and of one rule the first."""
    if broken:
        rule, at = min(broken, key=lambda it: it[0])
        raise Fault(f"B{rule} at {part} {item} {sub} {at}")


def list_of(table, member, part, item=0):
    found = table.get(member, [])
    if not isinstance(found, list):
        stop(part, item, 0, [(2, 0)])
    return found


def items_of(table, member, part, most, item=None):
    """The tables of a list with their numbers and the rules that they break by form: B2, and B6 at the first that is too many."""
    for number, found in enumerate(list_of(table, member, part, item or 0)):
        if not isinstance(found, dict):
            stop(part, *((number, 0) if item is None else (item, number)), [(2, 0)])
        yield number, found, [(6, 0)] if number == most else []


def given_name(value, taken, broken):
    """A name that is given here."""
    if not isinstance(value, str):
        broken.append((2, 0))
    elif not is_name(value):
        broken.append((3, 0))
    elif value in taken:
        broken.append((5, 0))
    return value


def referred(table, member, broken, is_needed=True):
    """A text that names something, or None."""
    found = table.get(member)
    if not isinstance(found, str) and (is_needed or member in table):
        broken.append((2, 0))
    return found


def text_within(value, most, broken):
    if not isinstance(value, str):
        broken.append((2, 0))
    elif any(ord(character) < 32 or ord(character) == 127 for character in value) or len(value.encode()) > most:
        broken.append((4, 0))


def optional_text(table, member, most, broken):
    if member in table:
        text_within(table[member], most, broken)


def is_truth(table, member, broken):
    if not isinstance(table.get(member, False), bool):
        broken.append((2, 0))


def texts_of(table, member, broken):
    """A list of texts, or None where it is none."""
    found = table.get(member, [])
    if isinstance(found, list) and all(isinstance(it, str) for it in found):
        return found
    broken.append((2, 0))
    return None


def first_fault(bundle):
    """The first fault of a document as JSON has it, without null members; None where there is none."""
    try:
        Reading(bundle)
    except Fault as fault:
        return str(fault)
    return None


class Reading:
    def __init__(self, bundle):
        self.read_top(bundle)
        model = bundle.get("model", {})
        self.read_features(bundle["line"])
        self.read_rules(bundle["line"])
        self.read_types(model)
        self.read_kinds(model)
        self.read_labels(model)
        self.read_elements(model)
        self.read_links(model)
        self.read_systems(model)
        self.read_templates(bundle)

    def read_top(self, bundle):
        if not isinstance(bundle, dict):
            stop("document", 0, 0, [(1, 0)])
        broken, version = [], bundle.get("bundle")
        if not isinstance(version, int) or isinstance(version, bool) or not -(2**63) <= version < 2**63:
            broken.append((2, 0))
        elif version != 1:
            broken.append((7, 0))
        text_within(bundle.get("title"), 512, broken)
        if not isinstance(bundle.get("line"), dict) or not isinstance(bundle.get("model", {}), dict):
            broken.append((2, 0))
        stop("bundle", 0, 0, broken)

    def read_features(self, line):
        self.features = []
        if not list_of(line, "features", "features"):
            stop("features", 0, 0, [(2, 0)])
        for number, feature, broken in items_of(line, "features", "features", 256):
            name = given_name(feature.get("name"), self.features, broken)
            parent, kind = referred(feature, "parent", broken, False), referred(feature, "kind", broken, False)
            if not broken and (parent is not None if number == 0 else parent not in self.features):
                broken.append((8, 0))
            if not broken and kind is not None and (number == 0 or kind not in LINE_KINDS):
                broken.append((9, 0))
            stop("features", number, 0, broken)
            self.features.append(name)

    def read_rules(self, line):
        for number, rule, broken in items_of(line, "rules", "rules", 1024):
            pairs = [texts_of(rule, member, broken) for member in ("requires", "excludes") if member in rule]
            optional_text(rule, "holds", 4096, broken)
            if not broken:
                unknown = any(len(pair) != 2 or set(pair) - set(self.features) for pair in pairs)
                if unknown or len(pairs) + ("holds" in rule) != 1:
                    broken.append((10, 0))
                elif "holds" in rule:
                    broken += self.of_condition(rule["holds"])
            stop("rules", number, 0, broken)

    def of_condition(self, text):
        fault = expressions.first_fault(text, self.features)
        return [] if fault is None else [fault]

    def read_types(self, model):
        self.types = {}
        for number, of, broken in items_of(model, "types", "types", 256):
            name, parent = given_name(of.get("name"), self.types, broken), referred(of, "parent", broken, False)
            above = self.types.get(parent, {"attributes": [], "system": False}) if isinstance(parent, str) else {"attributes": [], "system": False}
            attributes, own = list(above["attributes"]), texts_of(of, "attributes", broken) or []
            for attribute in own:
                given_name(attribute, attributes, broken)
                attributes.append(attribute)
            if len(attributes) > 32:
                broken.append((6, 0))
            is_truth(of, "system", broken)
            if not broken and parent is not None and parent not in self.types:
                broken.append((13, 0))
            stop("types", number, 0, broken)
            self.types[name] = {"parent": parent, "attributes": attributes, "system": above["system"] or of.get("system", False)}

    def fits(self, of, wanted):
        while of is not None and of != wanted:
            of = self.types[of]["parent"]
        return of is not None

    def attributes(self, of):
        return self.types[of]["attributes"]

    def read_kinds(self, model):
        self.kinds = {}
        for number, kind, broken in items_of(model, "kinds", "kinds", 256):
            name = given_name(kind.get("name"), self.kinds, broken)
            ends = referred(kind, "from", broken), referred(kind, "to", broken)
            if not broken and set(ends) - set(self.types):
                broken.append((14, 0))
            stop("kinds", number, 0, broken)
            self.kinds[name] = ends

    def read_labels(self, model):
        self.labels = []
        for number, label in enumerate(list_of(model, "labels", "labels")):
            broken = [(6, 0)] if number == 256 else []
            given_name(label, self.labels, broken)
            stop("labels", number, 0, broken)
            self.labels.append(label)

    def read_elements(self, model):
        self.elements = {}
        for number, element, broken in items_of(model, "elements", "elements", 2048):
            name, of = given_name(element.get("name"), self.elements, broken), referred(element, "type", broken)
            optional_text(element, "when", 4096, broken)
            values = element.get("attributes", {})
            if not isinstance(values, dict):
                broken.append((2, 0))
            else:
                for value in values.values():
                    text_within(value, 128, broken)
            if not broken:
                broken += self.of_condition(element.get("when", "true"))
                if of not in self.types:
                    broken.append((15, 0))
                elif set(values) != set(self.attributes(of)):
                    broken.append((16, 0))
            stop("elements", number, 0, broken)
            self.elements[name] = of

    def read_links(self, model):
        for number, link, broken in items_of(model, "links", "links", 16384):
            kind, one, other = [referred(link, member, broken) for member in ("kind", "from", "to")]
            optional_text(link, "when", 4096, broken)
            if not broken:
                broken += self.of_condition(link.get("when", "true"))
                if kind not in self.kinds or one not in self.elements or other not in self.elements:
                    broken.append((17, 0))
                elif not all(self.fits(self.elements[end], of) for end, of in zip((one, other), self.kinds[kind])):
                    broken.append((18, 0))
            stop("links", number, 0, broken)

    def read_systems(self, model):
        systems, self.owners = list_of(model, "systems", "systems"), []
        for number, system, broken in items_of(model, "systems", "systems", 256):
            owner = referred(system, "element", broken)
            if not broken:
                if owner not in self.elements or owner in self.owners or not self.types[self.elements[owner]]["system"]:
                    broken.append((19, 0))
                if has_good_states(system) and not any(state.get("initial") is True for state in system.get("states", [])):
                    broken.append((21, 0))
            stop("systems", number, 0, broken)
            self.owners.append(owner)
        before = 0
        for number, system in enumerate(systems):
            names = []
            for place, state, broken in items_of(system, "states", "states", 4096 - before, number):
                names.append(given_name(state.get("name"), names, broken))
                is_truth(state, "initial", broken)
                labels = texts_of(state, "labels", broken) or []
                if len(set(labels)) < len(labels):
                    broken.append((5, 0))
                if not broken and set(labels) - set(self.labels):
                    broken.append((22, 0))
                stop("states", number, place, broken)
            before += len(names)
        before = 0
        for number, system in enumerate(systems):
            names = [state["name"] for state in system.get("states", [])]
            for place, transition, broken in items_of(system, "transitions", "transitions", 16384 - before, number):
                ends = referred(transition, "from", broken), referred(transition, "to", broken)
                given_name(transition.get("action"), [], broken)
                optional_text(transition, "when", 4096, broken)
                if not broken:
                    broken += self.of_condition(transition.get("when", "true"))
                    if set(ends) - set(names):
                        broken.append((22, 0))
                stop("transitions", number, place, broken)
            before += len(system.get("transitions", []))
        for number, (element, of) in enumerate(self.elements.items()):
            if self.types[of]["system"] and element not in self.owners:
                stop("owners", number, 0, [(20, 0)])

    def read_templates(self, bundle):
        templates, names = list_of(bundle, "templates", "templates"), []
        if not templates:
            stop("templates", 0, 0, [(23, 0)])
        for number, template, broken in items_of(bundle, "templates", "templates", 256):
            name, params = given_name(template.get("name"), names, broken), template.get("params")
            if not broken:
                if number + 1 == len(templates) and isinstance(params, list) and params:
                    broken.append((23, 0))
                if template.get("nodes", []) == []:
                    broken.append((24, 0))
            stop("templates", number, 0, broken)
            names.append(name)
        self.params, before = [], 0
        for number, template in enumerate(templates):
            params = []
            for place, param, broken in items_of(template, "params", "params", 8, number):
                name, of = given_name(param.get("name"), [known for known, _ in params], broken), referred(param, "type", broken)
                if not broken and of not in self.types:
                    broken.append((23, 0))
                stop("params", number, place, broken)
                params.append((name, of))
            self.params.append(params)
        for number, template in enumerate(templates):
            nodes, scopes = list_of(template, "nodes", "nodes", number), []
            for place, node in enumerate(nodes):
                broken = forms_broken(nodes, place, 1024 - before)
                if not broken:
                    broken = self.of_node(templates, number, nodes, place, scopes)
                stop("nodes", number, place, broken)
            before += len(nodes)

    def of_node(self, templates, number, nodes, place, scopes):
        """The rules that a node of a good form breaks. Adds its scope, and that of what stands below it."""
        node, kind, check, broken = nodes[place], nodes[place]["kind"], nodes[place].get("check"), []
        if check is not None and isinstance(check.get("never"), str):
            fault = expressions.first_fault(check["never"], self.labels)
            broken += [] if fault is None else [fault]
        above = next((it for it in range(place) if nodes[it]["id"] == node.get("under")), None)
        if place == 0:
            stands = kind == "goal" and "under" not in node
        else:
            stands = above is not None and kind in KINDS and nodes[above]["kind"] in UNDER.get(kind, ("goal", "strategy"))
        if not stands:
            return [*broken, (24, 0)]
        if self.has_wrong_members(nodes, place):
            broken.append((25, 0))
        scope = self.params[number] if place == 0 else scopes[above][0 if kind in ANNOTATIONS else 1]
        below, query_faults = scope, []
        for member, holder in (("each", node), ("guard", node), ("none", check or {}), ("some", check or {})):
            if isinstance(holder.get(member), str):
                try:
                    query = queries.Query(holder[member], scope, self.types, self.kinds, self.attributes)
                    if member == "each":
                        below = scope + query.variables
                        broken += [] if query.variables else [(25, 0)]
                except queries.Fault as fault:
                    query_faults.append((26, fault.at))
        hole = hole_fault(node.get("text", ""), scope, self.attributes, kind == "strategy" and "each" in node)
        broken += query_faults[:1] + ([] if hole is None else [(27, hole)])
        if kind == "solution" and check is not None and not self.is_check(check, scope):
            broken.append((28, 0))
        if kind == "use" and "template" in node and not self.is_use(templates[:number], node, scope):
            broken.append((29, 0))
        scopes.append((scope, below))
        return broken

    def has_wrong_members(self, nodes, place):
        node, kind = nodes[place], nodes[place]["kind"]
        needed = {"use": {"template"}, "solution": {"text", "check"}}.get(kind, {"text"})
        allowed = needed | {"use": {"args"}, "strategy": {"each"}}.get(kind, set()) | ({"guard"} if place > 0 else set())
        members = {"text", "each", "guard", "check", "template", "args"} & set(node)
        if needed - members or members - allowed:
            return True
        if not node.get("undeveloped"):
            return False
        later = nodes[place + 1 :]
        if any(forms_broken(nodes, it, None) for it in range(place + 1, len(nodes))):
            return kind not in ("goal", "strategy")
        is_developed = any(it.get("under") == node["id"] and it["kind"] in UNDER for it in later)
        return kind not in ("goal", "strategy") or is_developed

    def is_check(self, check, scope):
        forms = [form for form in ("never", "deadlock", "none", "some") if form in check]
        if len(forms) != 1 or not isinstance(check[forms[0]], str):
            return False
        if forms[0] in ("none", "some"):
            return True
        variable = check.get("of" if forms[0] == "never" else "deadlock")
        of = dict(scope).get(variable) if isinstance(variable, str) else None
        return of is not None and self.types[of]["system"]

    def is_use(self, earlier, node, scope):
        number = next((it for it, template in enumerate(earlier) if template["name"] == node["template"]), None)
        if number is None:
            return False
        given, known = node.get("args", []), dict(scope)
        wanted = self.params[number]
        return len(given) == len(wanted) and all(it in known and self.fits(known[it], of) for it, (_, of) in zip(given, wanted))


def has_good_states(system):
    """Whether the rule on initial states is tested: the states break no rule of form."""
    states, names = system.get("states", []), []
    if not isinstance(states, list):
        return False
    for state in states:
        broken = [] if isinstance(state, dict) else [(2, 0)]
        if not broken:
            names.append(given_name(state.get("name"), names, broken))
            is_truth(state, "initial", broken)
            labels = texts_of(state, "labels", broken) or []
            broken += [(5, 0)] if len(set(labels)) < len(labels) else []
        if broken:
            return False
    return True


def forms_broken(nodes, place, most):
    """The rules of form that a template's node breaks; most is the number of nodes that are left, where that counts."""
    node, broken = nodes[place], [(6, 0)] if place == most else []
    if not isinstance(node, dict):
        return [(2, 0)]
    given_name(node.get("id"), [it.get("id") for it in nodes[:place] if isinstance(it, dict)], broken)
    referred(node, "kind", broken)
    for member in ("under", "template"):
        referred(node, member, broken, False)
    optional_text(node, "text", 512, broken)
    for member in ("each", "guard"):
        optional_text(node, member, 4096, broken)
    texts_of(node, "args", broken)
    is_truth(node, "undeveloped", broken)
    check = node.get("check", {})
    if not isinstance(check, dict):
        broken.append((2, 0))
    else:
        for member in ("never", "none", "some"):
            if isinstance(check.get(member), str):
                text_within(check[member], 4096, broken)
    return broken


def hole_fault(text, scope, attributes, is_counted):
    """The byte of the first fault of a text's holes, or None."""
    data, known, at, holes = text.encode(), dict(scope), 0, 0
    while at < len(data):
        if data[at : at + 2] in (b"{{", b"}}"):
            at += 2
        elif data[at : at + 1] not in (b"{", b"}"):
            at += 1
        else:
            hole, is_count = HOLE.match(data, at), is_counted and data[at : at + 3] == b"{#}"
            if (hole is None and not is_count) or holes == MOST_HOLES:
                return at
            holes += 1
            if is_count:
                at += 3
                continue
            variable, attribute = hole.group(1).decode(), hole.group(2).decode()
            if variable not in known:
                return hole.start(1)
            if attribute != "name" and attribute not in attributes(known[variable]):
                return hole.start(2)
            at = hole.end()
    return None
