"""Reads what the imports of a file of code or of definitions name."""
import re

LINES = re.compile(r"^[ \t]*(?:ghost use (Rattle[^;]*);|(?:(?:pub|unfoldable) )*use (Rattle[^\n]*)$)", re.M)


def parted(path, rest):
    """Each item of an import: the module that it stands in, its name there, and the name under which it comes in."""
    rest = rest.strip()
    start = rest.find("{")
    if start < 0:
        name, _, other = rest.partition(" as ")
        parts = [*path, *name.split(".")]
        yield ".".join(parts[:-1]), parts[-1], other or parts[-1]
        return
    path = path + [it for it in rest[:start].split(".") if it]
    depth, item = 0, ""
    for letter in rest[start + 1 : rest.rindex("}")] + ",":
        depth += (letter == "{") - (letter == "}")
        if letter == "," and not depth:
            if item.strip():
                yield from parted(path, item)
            item = ""
        else:
            item += letter


def imports(text):
    """What a file's imports name. A module that is brought in whole is an item of the module above it."""
    for code, definitions in LINES.findall(text):
        yield from parted([], code or definitions)
