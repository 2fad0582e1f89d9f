"""A bound of the stack that a function of the library takes on a Cortex-M0, whatever it is called with.

The compiler says what each function takes, and which functions it calls stands in the object: none calls itself, also not
through others, and none is called through a pointer. Both are checked.
"""
import re
import subprocess


class Unbounded(Exception):
    """No bound can be told; the text says why."""


def listing(path):
    return subprocess.run(["arm-none-eabi-objdump", "-dr", path], check=True, capture_output=True, text=True).stdout


def pushed(path):
    """Bytes that a function of an object takes at most, where none calls another: cortex-m0/memory.S is so."""
    text = listing(path)
    if re.search(r"\tblx?\t|\tsub\tsp", text):
        raise Unbounded("a memory function calls another, or takes more than it pushes")
    return max(4 * (registers.count(",") + 1) for registers in re.findall(r"\tpush\t\{(.*)\}", text))


def frames(path):
    """Bytes that each function takes by itself."""
    found = {}
    for line in path.read_text(encoding="utf-8").splitlines():
        name, count, kind = line.split("\t")
        if kind != "static":
            raise Unbounded(f"the stack of {name} is not known beforehand")
        found[re.sub(r"^[^:]*:(\d+:)*", "", name)] = int(count)
    return found


def calls(path):
    """The functions that each function calls. A bl to a place inside the function itself is only a far jump."""
    found, name, unnamed = {}, None, []
    for line in listing(path).splitlines():
        if head := re.match(r"[0-9a-f]+ <(.*)>:", line):
            name = head[1]
            found[name] = set()
        elif called := re.search(r"R_ARM_THM_(?:CALL|JUMP\d+)\t(\S+)", line):
            found[name].add(called[1])
            unnamed.pop()
        elif jump := re.search(r"\tblx?\t(.*)", line):
            unnamed.append((name, jump[1]))
    for name, target in unnamed:
        if f"<{name}+0x" not in target:
            raise Unbounded(f"{name} calls what has no name here: {target}")
    return found


def bounds(compiled, outside):
    """A bound for each function of an object, by name; outside: what a function takes that it has not."""
    own, called, known = frames(compiled.with_suffix(".su")), calls(compiled), {}

    def bound(name, above):
        if name in above:
            raise Unbounded(f"{name} calls itself")
        if name not in own:
            return outside
        if name not in known:
            known[name] = own[name] + max((bound(other, (*above, name)) for other in called[name]), default=0)
        return known[name]

    return {name: bound(name, ()) for name in own}
