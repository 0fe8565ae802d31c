"""Reads ini texts, and finds the first entry that matches a path."""
import re

from ned import NotReckoned, quantity, read_expression


class Entry:
    """A line with a key. `kind` says what it is for: an option, a parameter, a type, or an object's option."""

    def __init__(self, key, value):
        self.key, self.value = key, value
        last = last_part(key)
        self.option = None if last is not None else key
        self.last = key if last is None else last
        hyphened = "-" in re.sub(r"\{[^}]*\}", "", self.last)
        self.kind = "option" if last is None else "object" if hyphened else "type" if last == "typename" else "parameter"
        self.pattern = pattern_of(key)
        self.expression = None
        if self.kind in ("type", "parameter") and value != "default":
            self.expression = read_expression(value)
            if not is_constant(self.expression):
                raise NotReckoned(f"the value {value}")


def is_constant(expression):
    """Whether an expression is of literals, operators, min and max."""
    kind = expression[0]
    return kind in ("value", "one", "two", "choice") and all(is_constant(it) for it in expression[1:] if isinstance(it, tuple)) if kind != "value" else True


def last_part(key):
    """What stands behind the last dot outside of sets and brackets; none where there is no such dot."""
    plain = re.sub(r"\{[^}]*\}|\[[^\]]*\]", lambda it: "x" * len(it[0]), key)
    if "\\" in key:
        raise NotReckoned(f"the key {key}")
    return key[plain.rindex(".") + 1 :] if "." in plain else None


class Ini:
    """An ini text, of which one configuration is selected."""

    def __init__(self, text, config):
        self.config, self.sections, self.bases = config, {"General": []}, {}
        lines = text.split("\n")
        section = None
        for line in lines[:-1] if lines[-1] == "" else lines:
            line = line.removesuffix("\r")
            if not line.strip(" \t") or line.lstrip(" \t").startswith("#"):
                continue
            heading = re.fullmatch(r"\[(?:Config )?([A-Za-z0-9_-]+)\]", line)
            if heading:
                section = heading[1]
                self.sections.setdefault(section, [])
                continue
            found = re.fullmatch(r"([!-<>-~]+)[ \t]*=[ \t]*(\S.*)", line)
            if section is None or not found:
                raise NotReckoned(f"the line {line!r}")
            self.add(section, found[1], value_of(found[2]))
        self.chain = self.chain_of(config)
        self.entries = [it for name in self.chain for it in self.sections[name]]

    def add(self, section, key, value):
        if not value or "${" in value or value.endswith("\\") or key in ("include", "repeat", "simtime-resolution", "warmup-period"):
            raise NotReckoned(f"the entry {key} = {value}")
        entry = Entry(key, value)
        if entry.option == "extends":
            names = [it.strip(" \t") for it in value.split(",")]
            if section == "General":
                raise NotReckoned(f"extends = {value}")
            self.bases.setdefault(section, [it for it in names if it != "General"])
        else:
            self.sections[section].append(entry)

    def chain_of(self, config):
        return (self.line_of(config, ()) if config != "General" else []) + ["General"]

    def line_of(self, config, open):
        """A configuration, and then what it extends: again and again the first head of a list that stands in no tail of a list."""
        if config in open or config not in self.sections:
            raise NotReckoned(f"the configuration {self.config}")
        bases, line = self.bases.get(config, []), [config]
        lists = [self.line_of(it, (*open, config)) for it in bases] + [bases]
        while lists := [it for it in lists if it]:
            head = next((it[0] for it in lists if not any(it[0] in other[1:] for other in lists)), None)
            if head is None:
                raise NotReckoned(f"the configuration {self.config}")
            line.append(head)
            lists = [it[1:] if it[0] == head else it for it in lists]
        return line

    def option(self, name):
        """The value of an option, of which the first counts."""
        return next((it.value for it in self.entries if it.option == name), None)

    def first(self, path, name, kind):
        """The first entry for that name of what has that path."""
        whole = f"{path}.{name}"
        for entry in self.entries:
            if entry.kind == kind and (kind != "object" or entry.last == name) and matches(entry.pattern, whole):
                return entry
        return None

    def limit(self):
        """The time limit, if there is one."""
        said = self.option("sim-time-limit")
        if said is None:
            return None
        if not re.fullmatch(r"\d+(\.\d+)?(d|h|min|s|ms|us|ns|ps)", said):
            raise NotReckoned(f"sim-time-limit = {said}")
        return quantity(said)[1]

    def is_on(self, path, option):
        """Whether an option of an object, true unless it says otherwise, is on."""
        entry = self.first(path, option, "object")
        if entry and entry.value not in ("true", "false"):
            raise NotReckoned(f"{entry.key} = {entry.value}")
        return not entry or entry.value == "true"

    def modes(self, path, declared):
        """The recording modes of a statistic of that path: those that are declared, as an option says."""
        entry = self.first(path, "result-recording-modes", "object")
        items = [it.strip(" \t") for it in entry.value.split(",")] if entry else ["default"]
        plain = [mode for mode, optional in declared if not optional]
        chosen = list(plain) if items[0][:1] in "+-" else []
        for item in items:
            sign, name = (item[0], item[1:]) if item[:1] in ("+", "-") else ("+", item)
            names = {"default": plain, "all": [mode for mode, _ in declared]}.get(name if sign != item[:1] else "", [name])
            if not set(names) <= {"count", "sum", "min", "max", "last", "vector"}:
                raise NotReckoned(f"{entry.key} = {entry.value}")
            chosen = [it for it in chosen if it not in names] if sign == "-" else chosen + [it for it in names if it not in chosen]
        order = [mode for mode, _ in declared]
        return [it for it in order if it in chosen] + [it for it in chosen if it not in order]


def value_of(text):
    """A value without the comment and the blanks behind it."""
    for found in re.finditer(r'"(?:[^"\\]|\\.)*"|#', text):
        if found[0] == "#":
            text = text[: found.start()]
            break
    return text.rstrip(" \t")


def pattern_of(key):
    """The parts of a pattern: a character, `?`, `*`, `**`, a set, or a range of numbers between marks."""
    parts, at = [], 0
    while at < len(key):
        found = re.compile(r"\[(\d*)\.\.(\d*)\]|\{(\d*)\.\.(\d*)\}|\{(\^?)([^}]+)\}|(\*\*)|(\*)|(\?)|([^{}\\*?])").match(key, at)
        if not found:
            raise NotReckoned(f"the key {key}")
        at = found.end()
        if found[1] is not None:
            parts += [("char", "["), ("range", found[1], found[2]), ("char", "]")]
        elif found[3] is not None:
            parts.append(("range", found[3], found[4]))
        elif found[6] is not None:
            parts.append(("set", bool(found[5]), set_of(found[6])))
        else:
            parts.append(("many",) if found[7] else ("run",) if found[8] else ("any",) if found[9] else ("char", found[10]))
    return parts


def set_of(text):
    """The characters that a set names, as ranges."""
    ranges = re.findall(r"(.)-(.)|(.)", text)
    return [(first or one, last or one) for first, last, one in ranges]


def matches(pattern, name):
    """Whether the whole name matches. The places in the name at which what was matched so far may end are kept."""
    places = {0}
    for part in pattern:
        after = set()
        for at in places:
            after |= set(ends(part, name, at))
        places = after
    return len(name) in places


def ends(part, name, at):
    """Where what the part matches from that place on may end."""
    if part[0] in ("many", "run"):
        for end in range(at, len(name) + 1):
            yield end
            if part[0] == "run" and name[end : end + 1] == ".":
                return
    elif part[0] == "range":
        end = at
        while end < len(name) and name[end] in "0123456789":
            end += 1
        for begin in [at] if at < end <= at + 18 else []:
            if int(part[1] or 0) <= int(name[begin:end]) <= int(part[2] or 10**18):
                yield end
    elif at < len(name):
        one = name[at]
        if part[0] == "char" and part[1] == one or part[0] == "any" and one != ".":
            yield at + 1
        elif part[0] == "set" and any(first <= one <= last for first, last in part[2]) != part[1]:
            yield at + 1
