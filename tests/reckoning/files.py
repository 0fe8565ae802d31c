"""The two result files of a run."""
import re


def time_text(time):
    part = f"{time % 10**12:012}".rstrip("0")
    return str(time // 10**12) + ("." + part if part else "")


def header(world):
    ini = world.model.ini
    lines = ["version 3", f"run {ini.config}-0", f"attr configname {ini.config}", f"attr network {world.model.network.type.name}", "attr runnumber 0"]
    return lines + [f"config {it.key} {quoted(it.value)}" for it in ini.entries] + [""]


def quoted(value):
    if re.fullmatch(r"[!#-\[\]-~]+", value):
        return value
    return '"' + value.replace("\\", "\\\\").replace('"', '\\"') + '"'


def statistics(world, module):
    """Each statistic of a module that may be recorded: its name, its signal, its modes."""
    for name, (source, modes) in module.type.statistics.items():
        if world.model.ini.is_on(f"{module.path}.{name}", "statistic-recording"):
            yield name, source, world.model.ini.modes(f"{module.path}.{name}", modes)


def heard(world, module, source):
    """What a module hears of a signal: the values that it and all modules in it emitted."""
    for at, (emitter, signal, *_) in enumerate(world.emitted):
        while emitter is not None and emitter is not module:
            emitter = emitter.parent
        if signal == source and emitter is module:
            yield at


MAKES = {"count": len, "sum": sum, "min": min, "max": max, "last": lambda it: it[-1]}


def scalars_of(world, module):
    """The scalars of a module with their values: those that it recorded, and then those of its statistics."""
    yield from (it[1:] for it in world.scalars if it[0] is module)
    for name, source, modes in statistics(world, module) if module.finished else []:
        values = [world.emitted[it][4] for it in heard(world, module, source)]
        yield from ((f"{name}:{mode}", MAKES[mode](values)) for mode in modes if mode != "vector" and (values or mode in ("count", "sum")))


def scalar_file(world):
    lines, ini = header(world), world.model.ini
    for module in world.parts:
        lines += [f"scalar {module.path} {name} {value}" for name, value in scalars_of(world, module) if ini.is_on(f"{module.path}.{name}", "scalar-recording")]
    return "\n".join(lines) + "\n"


def vector_file(world):
    lines, data, number = header(world), {}, 0
    for module, name, source, modes in ((module, *it) for module in world.parts for it in statistics(world, module)):
        places = list(heard(world, module, source))
        if "vector" in modes and places and world.model.ini.is_on(f"{module.path}.{name}:vector", "vector-recording"):
            lines.append(f"vector {number} {module.path} {name}:vector ETV")
            for it in places:
                data.setdefault(it, []).append(number)
            number += 1
    for at in sorted(data):
        _, _, event, now, value = world.emitted[at]
        lines += [f"{it}\t{event}\t{time_text(now)}\t{value}" for it in data[at]]
    return "\n".join(lines) + "\n"
