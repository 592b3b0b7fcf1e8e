"""The rules of docs/profile.md: each has a heading, its name, and a list below it, whose item **Known by** tells how it is known."""
import re

HEADING = "## How each rule is known"
GRADES = ("source", "function", "virtual", "plane", "changelog", "memory", "profile")
FIRST, KNOWN_BY = "Here", "Known by"


def parts_of(page, depth):
    """The headings of that depth, each with the lines below it; before the first one the heading is None."""
    parts = [(None, [])]
    for line in page.splitlines():
        if line.startswith("#" * depth + " "):
            parts.append((line.strip("# ").strip(), []))
        else:
            parts[-1][1].append(line)
    return parts


def items_of(lines):
    """The items of a list as (label, text); an item goes on in lines that are indented."""
    items = []
    for line in lines:
        found = re.match(r"- \*\*([^*]+)\*\*: (.*)", line)
        if found:
            items.append((found[1], found[2].strip()))
        elif items and line.startswith("  "):
            items[-1] = (items[-1][0], f"{items[-1][1]} {line.strip()}")
    return items


def listed_in(lines):
    """The names in the table of contents at the top of a group of rules, which tells of each what differs by the own rules, and by upstream's."""
    rows = [found for found in (re.match(r"\| \[([^]]+)\]\(#[^)]+\) \| (.+) \| (.+) \|$", line) for line in lines) if found]
    return [found[1] for found in rows]


class Profile:
    def __init__(self, path):
        self.known, self.found = {}, []
        with open(path, encoding="utf-8") as page:
            groups = parts_of(page.read().split(HEADING)[1], 2)
        for group, lines in groups[1:]:
            self.take(group, parts_of("\n".join(lines), 3))

    def take(self, group, rules):
        """The rules of a group, whose first part, without a heading, lists their names in a table."""
        names = [name for name, _ in rules[1:]]
        for name, lines in rules:
            self.take_rule(name, items_of(lines))
        if listed_in(rules[0][1]) != names:
            self.found.append(f"docs/profile.md: the table at the top of '{group}' isn't of its rules, in their order")

    def take_rule(self, name, items):
        for position, (label, text) in enumerate(items):
            if label == FIRST and (position > 0 or not name):
                self.found.append(f"docs/profile.md: a rule without a name: {text[:60]}")
        if name is None:
            return
        if name in self.known:
            self.found.append(f"docs/profile.md: two rules with the name '{name}'")
        if [label for label, _ in items].count(KNOWN_BY) != 1 or not items or items[0][0] != FIRST:
            self.found.append(f"docs/profile.md: the rule '{name}' hasn't one item '{FIRST}' first and one item '{KNOWN_BY}'")
        self.known[name] = dict(items).get(KNOWN_BY, "")

    def names_set(self, rule, set_name):
        """Whether the rule says that it is known by this recorded set."""
        return f"`{set_name}`" in self.known.get(rule, "")

    def names_scenario(self, rule, letters):
        """Whether the rule says that it was seen in this scenario on a real plane."""
        planes = re.findall(r"plane: ([a-z0-9_, ]+)", self.known.get(rule, ""))
        return any(letters in it.replace(" ", "").split(",") for it in planes)

    def faults(self):
        """Rules without a name, or that don't say how they are known, and tables of contents that aren't of their rules."""
        yield from self.found
        for rule, cell in self.known.items():
            words = [it.strip().split(":")[0] for it in cell.split(";")]
            if not all(it in GRADES for it in words):
                yield f"docs/profile.md: the rule '{rule}' doesn't say how it is known: {cell}"
