"""The kept help (`help.txt`), part by part."""
import os
import re

HERE = os.path.dirname(os.path.abspath(__file__))
TOP = os.path.dirname(HERE)


def read(*path):
    """The text of a file of the repository."""
    with open(os.path.join(TOP, *path), encoding="utf-8") as file:
        return file.read()


def text():
    return read(".ci", "help.txt")


def blocks():
    """The parts of the help that empty lines part."""
    return [block.strip("\n") for block in re.split(r"\n\n+", text().strip("\n"))]


def block_with(start):
    """The part of the help that begins so."""
    return next(block for block in blocks() if block.startswith(start))


def options():
    """The options: for each what it sets, and what it takes with its usual value."""
    found, name = {}, None
    for line in block_with("Options, as").split("\n"):
        if re.match(r"  --\w", line):
            name = line.strip()
            found[name] = ["", ""]
        elif name and line.startswith("      takes "):
            found[name][1] = line.strip()
        elif name:
            found[name][0] = f"{found[name][0]} {line.strip()}".strip()
    return found


def takes(option):
    """The words that an option takes, where it takes words: those before the semicolon."""
    given = re.fullmatch(r"takes (.*); usual: (.*)", options()[option][1])[1]
    return given.split(", ") if re.fullmatch(r"[a-z]+(, [a-z]+)+", given) else []


def kinds():
    """The decoders, in order: for each its options with their lines, its classes, and what it is and stands on. A
    line that is further in goes on with the option before it."""
    found, name, inside, last = {}, None, False, None
    for line in text().split("\n"):
        if not line.startswith(" "):
            inside = line.startswith("Decoders")
            continue
        if not inside:
            continue
        head = re.match(r"  ([a-z]\w*): (.*); (.*)", line)
        option = re.match(r"      ([a-z]\w*): ", line)
        classes = re.match(r"      binary data: (.*)", line)
        if head:
            name = head.group(1)
            found[name] = {
                "options": {}, "classes": [], "text": line, "is": head.group(2), "stands": head.group(3), "needs": "",
            }
            continue
        found[name]["text"] += "\n" + line
        if classes:
            found[name]["classes"] = re.findall(r"\w+", classes.group(1))
        elif option:
            last = option.group(1)
            found[name]["options"][last] = line
        elif line.startswith(" " * 10):
            found[name]["options"][last] += " " + line.strip()
        else:
            found[name]["needs"] = line.strip()
    return found


def values_of(line):
    """The words that an option of a decoder takes, or its numbers where these are few."""
    choice = re.search(r"; one of ([\w, ]+);", line)
    bounds = re.search(r"; (\d+) to (\d+);", line)
    if choice:
        return choice[1].split(", ")
    if bounds and int(bounds[2]) - int(bounds[1]) < 33:
        return [str(number) for number in range(int(bounds[1]), int(bounds[2]) + 1)]
    return []


def parent_of(kind):
    """The decoder that this one stands on; empty where it reads samples."""
    stands = re.match(r"on (\w+)", kind["stands"])
    return stands[1] if stands else ""
