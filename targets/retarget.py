"""Makes a module that the kit compiles for x86-64 one for another target: retarget.py TARGET LEVEL KIND < MODULE > MADE

TARGET is a row of table.py, LEVEL is Os, O2 or O3, and KIND says what the module is of, the library or the rehearsal. The
module is text, as clang prints it without running a pass.

Why the changed module means the same. The kit's backend lays out memory by itself: a place is a number, a pointer or an
array of bytes, a field is an offset in bytes, a load or store states its size and alignment, a copy its size. So the
module hardly depends on the data layout, and what does is changed:

- the triple and the data layout;
- the functions' attributes: "target-cpu" and the two that probe the stack are x86-64's and go; at Os `optsize` comes;
- a count that an exported function is given, 64 bits in the module, comes in as C's size_t of 32 bits and is widened;
- a copy, which the kit writes without alignment, states that of its two addresses: on a core that faults at a word which
  is not aligned, clang would take the bytes one by one.

These alignments are read off the module, and nothing is assumed. A place of a function is aligned as its alloca states,
on every target; no more than 8 is made of that, which is what a stack has. A field is a fixed number of bytes behind an
address: what divides both divides the field's. A parameter of an internal function has the least that its calls hand
over, and all its calls are known, since a function is named at its head and where it is called and nowhere else. The
parameters start at the highest and are lowered until every call fits. Then what is said of them holds at each call that
a run comes to, if it held at those before: nothing is said of what C hands to an exported function, of an address that
was loaded, or of one with a computed offset.

A pointer keeps its slot of 8 bytes and fills 4 of them. That is sound while no pointer is looked at as a number: none is
converted, none is compared but with the null pointer, which is address 0 on the target too, and no slot holds both. Slots
are followed within a function, through its copies; that what one function leaves in memory as a pointer is no number to
another is by Rattle's types. A place for a pointer alone has 4 bytes on the target, so nothing but a load or a store may
touch it. Offsets of 64 bits are cut to 32 where an address is computed; they are below the size of an object, hence below
2^32. A target must be little-endian, with pointers of 32 bits and a stack aligned to 8 bytes, and its C compiler must hand
over numbers of 32 bits as they are. An exported function takes the null pointer for a slice to be one without elements and
gives it another address, so nothing may be lent at address 0.

A place may be filled with zeros before parts of it are stored to. That makes no byte part of a number or of a pointer:
zeros are 0 and the null pointer alike, on the target as in the module. No fill ends inside a pointer.

Constants are bytes, aligned to 1. Their addresses are stored, and nothing is said of the alignment of one that is loaded.

A function may answer a pair. It is loaded whole from a place, handed back, and taken apart. A pair is let through where
both of its parts lie at the same offsets on the target as in the module. A number of one byte and a pointer, an `Option` of a
reference, would not: between them come as many bytes as keep the pointer at its offset.

A place that no run comes to, by the proofs, may end in a trap, which is an instruction of the target. In the rehearsal functions may be marked as
such that are always, or never, put into those that call them; they compute the same either way.

Whatever this does not cover is refused, with its line: the lists below name all that a module may have.
"""
import collections
import functools
import math
import pathlib
import re
import sys

sys.dont_write_bytecode = True
from table import TARGETS

HERE = pathlib.Path(__file__).resolve().parent
HEADER = HERE.parent / "include" / "ocb.h"
KINDS = {"library": HEADER, "rehearsal": HERE / "wasm32" / "rehearse.h"}  # the header with what a module exports
LEVELS = {"Os": " optsize", "O2": "", "O3": ""}

# The target that the module is for, and the attributes of its functions.
FACTS = {
    "target datalayout": "e-m:e-p270:32:32-p271:32:32-p272:64:64-i64:64-i128:128-f80:128-n8:16:32:64-S128",
    "target triple": "x86_64-unknown-linux-gnu",
}
ATTRIBUTES = re.compile(r'attributes (#\d+) = \{ ((?:alwaysinline |noinline )?)nounwind "probe-stack"="inline-asm"'
                        r' "stack-probe-size"="3072" "target-cpu"="x86-64-v2" \}')
OTHER_ATTRIBUTES = re.compile(r"attributes #[1-9]\d* = \{ (?:nobuiltin|nocallback|nofree|nosync|nounwind|speculatable"
                              r"|willreturn|memory\([\w: ,]+\)| )+ \}")
TRAP_ATTRIBUTES = re.compile(r"attributes (#[1-9]\d*) = \{ cold noreturn nounwind memory\(inaccessiblemem: write\) \}")

# No instruction turns a pointer into a number or looks at one, and no type is wider than 64 bits.
OPCODES = set("alloca load store getelementptr call ret br switch unreachable icmp add sub mul udiv urem and or xor zext"
              " trunc extractvalue".split())
INTRINSICS = {"llvm.memmove.p0.p0.i64", "llvm.memset.p0.i64", "llvm.ctlz.i32", "llvm.trap"}
SIZES = {"i1": 1, "i8": 1, "i16": 2, "i32": 4, "i64": 8, "ptr": 8}  # bytes of a place
LOOSE = re.compile(r"[{<]|\b(?:asm|float|double|half|bfloat|fp128|addrspace|volatile|atomic|inttoptr|ptrtoint|bitcast)\b")
NAME = re.compile(r'(?<=@)"[^"]+"')  # of a function of the module: a generic one's has the types that it is made for
KIND = "(?:i1|i8|i16|i32|i64|ptr)"
PAIR = r"\{ (i1|i8|i16|i32|i64|ptr), (i1|i8|i16|i32|i64|ptr) \}"
SOME_PAIR = PAIR.replace("(i1", "(?:i1")
ARGUMENT = rf"{KIND} (?:%[\w.]+|-?\d+|true|false)"
CALL = re.compile(rf'call (?:noundef )?(?:zeroext )?(?:void|{KIND}|{SOME_PAIR}) @(?!llvm\.mem)("[^"]+"|[\w.]+)'
                  rf"\(((?:{ARGUMENT}(?:, {ARGUMENT})*)?)\)$", re.M)
FORMS = {
    "extractvalue": re.compile(rf"= extractvalue {SOME_PAIR} %[\w.]+, [01]$"),
    "ret": re.compile(rf"  ret (?:void|{KIND} [^ ,]+|{SOME_PAIR} %[\w.]+)$"),
    "alloca": re.compile(rf"= alloca (?:{KIND}|\[\d+ x i8\]), align \d+$"),
    "load": re.compile(rf"= load (?:{KIND}|{SOME_PAIR}), ptr %[\w.]+, align \d+(?:, !(?:noundef|range) !\d+)*$"),
    "store": re.compile(rf"  store {KIND} [^ ,]+, ptr %[\w.]+, align \d+$"),
    "getelementptr": re.compile(r"= getelementptr (?:inbounds nuw )?i8, ptr %[\w.]+, i64 (?:\d+|%[\w.]+)$"),
    "call": re.compile(CALL.pattern + r"|@llvm\.memmove\.p0\.p0\.i64\(ptr %[\w.]+, ptr %[\w.]+, i64 \d+, i1 false\)$"
                       r"|@llvm\.memset\.p0\.i64\(ptr %[\w.]+, i8 0, i64 \d+, i1 false\)$"),
}
CONSTANT = re.compile(r'@static\.\d+ = private unnamed_addr constant \[\d+ x i8\] c"[^"]*", align 1$')
TAKEN = re.compile(r"  store ptr @static\.\d+, ptr %[\w.]+, align \d+$")  # the address of a constant
NAMED = re.compile(rf"(?:define|declare|  (?:%[\w.]+ = )?call) (?:[\w ]*|[\w ]*{SOME_PAIR} )@[^@]*")
PARAMETER = rf"{KIND}(?: noundef)?(?: zeroext)? %a\d+"
INTERNAL = re.compile(rf'define internal (?:(?:noundef )?(?:zeroext )?(?:{KIND}|{SOME_PAIR})|void) @"[^"]+"'
                      rf"\((?:{PARAMETER}(?:, {PARAMETER})*)?\) (#\d+) \{{$")
BODY = re.compile(r"^define .*?^}", re.M | re.S)
TRAP = re.compile(r"^  call void @llvm\.trap\(\)\n(?!  unreachable$)", re.M)
OUTER = re.compile(r"$|;|source_filename = |}$|define |declare |attributes #|target |!llvm\.ident = |!\d+ = !\{|[\w.]+:")


class Refused(Exception):
    """The module has something that the argument above does not cover."""


def refuse(number, line, why):
    raise Refused(f"line {number}: {why}: {line.strip()}")


def kind_of(parameter):
    """A parameter of the header as x86-64's module has it."""
    if "*" in parameter or "[" in parameter:
        return "ptr"
    kind = {"uint8_t": "i8", "uint32_t": "i32", "size_t": "i64"}.get(parameter.split()[0])
    if kind is None:
        raise Refused(f"a parameter of the header that was not looked at: {parameter.strip()}")
    return kind


def exports(kind="library"):
    """The exported functions by the header, with their parameters."""
    text = re.sub(r"/\*.*?\*/", "", KINDS[kind].read_text(encoding="utf-8"), flags=re.S)
    heads = re.findall(r"^uint32_t (ocb_\w+)\((.*?)\);", text, re.M | re.S)
    return {name: [kind_of(part) for part in parameters.split(",")] for name, parameters in heads}


# ---- What a module may have

def check_names(number, line):
    for name in re.findall(r"@(llvm\.[\w.]+)", line):
        if name not in INTRINSICS:
            refuse(number, line, "an intrinsic that was not looked at")


def second_of(one, other, pointer=8):
    """Where the second part of a pair begins, pointers having so many bytes."""
    sizes = {**SIZES, "ptr": pointer}
    return -(-sizes[one] // sizes[other]) * sizes[other]


def check_pairs(number, line):
    for one, other in re.findall(PAIR, line):
        if second_of(one, other) != second_of(one, other, 4) and (one, other) != ("i8", "ptr"):
            refuse(number, line, "a pair that lies otherwise on the target")


def check_instruction(number, line):
    opcode = re.match(r"  (?:%[\w.]+ = )?(\w+)", line)
    if not opcode or opcode[1] not in OPCODES:
        refuse(number, line, "an instruction that was not looked at")
    check_pairs(number, line)
    words = NAME.sub("", line)
    if LOOSE.search(re.sub(SOME_PAIR, "", words)):
        refuse(number, line, "a type or a word that was not looked at")
    if not set(re.findall(r"\bi\d+\b", words)) <= set(SIZES):
        refuse(number, line, "a width that was not looked at")
    if re.search(r"icmp \w+ ptr\b", line) and not re.search(r"icmp eq ptr %[\w.]+, null$", line):
        refuse(number, line, "pointers are compared")
    if opcode[1] in FORMS and not FORMS[opcode[1]].search(line):
        refuse(number, line, f"a form of {opcode[1]} that was not looked at")


def check(number, line):
    """Refuses a line that the argument does not cover."""
    check_names(number, line)
    if line.startswith("  "):
        if not re.match(r"  (\]$|  i\d+ -?\d+, label )", line):  # the arms of a switch
            check_instruction(number, line)
    elif CONSTANT.match(line):
        return
    elif not OUTER.match(line):
        refuse(number, line, "a global, a named type or a line that was not looked at")
    elif line.startswith("define internal") and not INTERNAL.match(line):
        refuse(number, line, "a head of a function that was not looked at")
    if "@" in line and not line.startswith((";", "source_filename")) and not TAKEN.match(line) and not NAMED.fullmatch(line):
        refuse(number, line, "a function is named outside its head and its calls")


class Slots:
    """The bytes of a function's places: which are used as part of a pointer, and which as part of a number."""

    def __init__(self, body):
        self.head = body.splitlines()[0]
        fields = re.findall(r"(%[\w.]+) = getelementptr (?:[a-z]+ )*i8, ptr (%[\w.]+), i64 (\d+)\n", body)
        self.fields = {name: (base, int(offset)) for name, base, offset in fields}
        self.kinds = {}
        for kind, place in re.findall(r"load (\w+), ptr (%[\w.]+)", body):
            self.use(place, SIZES[kind], kind)
        for kind, place in re.findall(r"store (\w+) [^ ,]+, ptr (%[\w.]+)", body):
            self.use(place, SIZES[kind], kind)
        for one, other, place in re.findall(rf"load {PAIR}, ptr (%[\w.]+)", body):
            self.use_pair(place, one, other)
        self.computed = set(re.findall(r"(%[\w.]+) = getelementptr (?:[a-z]+ )*i8, ptr %[\w.]+, i64 %", body))
        self.check_pointers(body)
        self.fills = re.findall(r"@llvm\.memset\S*\(ptr (%[\w.]+), i8 0, i64 (\d+)", body)
        self.copies = re.findall(r"@llvm\.memmove\S*\(ptr [^%]*(%[\w.]+), ptr [^%]*(%[\w.]+), i64 (\d+)", body)

    def check_pointers(self, body):
        """A place for a pointer alone is smaller on the target: it is loaded and stored, and its address goes nowhere."""
        named = collections.Counter(re.findall(r"%[\w.]+", body))
        used = re.findall(r"(%[\w.]+) = alloca ptr,|load ptr, ptr (%[\w.]+)|store ptr [^ ,]+, ptr (%[\w.]+)", body)
        known = collections.Counter(name for names in used for name in names if name)
        for place in (own for own, _, _ in used if own):
            if named[place] != known[place]:
                raise Refused(f"the place of a pointer is lent or copied: {place} in {self.head}")

    def at(self, place):
        """The place that an address is in, and how far behind its start."""
        offset = 0
        while place in self.fields:
            place, further = self.fields[place]
            offset += further
        return place, offset

    def use(self, place, count, kind):
        base, offset = self.at(place)
        for byte in range(offset, offset + count):
            self.kinds.setdefault((base, byte), set()).add("pointer" if kind == "ptr" else "number")

    def use_pair(self, place, one, other):
        """A pair lies in a place as two parts, the second where its alignment lets it."""
        base, offset = self.at(place)
        self.use(place, SIZES[one], one)
        for byte in range(second_of(one, other), second_of(one, other) + SIZES[other]):
            self.kinds.setdefault((base, offset + byte), set()).add("pointer" if other == "ptr" else "number")

    def copy(self, to, source, count):
        """What is copied is of the same kind at both ends; whether that was news."""
        (to, to_offset), (source, offset) = self.at(to), self.at(source)
        before = sum(map(len, self.kinds.values()))
        for byte in range(int(count)):
            ends = (to, to_offset + byte), (source, offset + byte)
            both = self.kinds.get(ends[0], set()) | self.kinds.get(ends[1], set())
            if both:
                self.kinds.update({end: set(both) for end in ends})
        return sum(map(len, self.kinds.values())) > before

    def check(self):
        while any([self.copy(*copied) for copied in self.copies]):
            pass
        for (base, byte), kinds in self.kinds.items():
            if len(kinds) > 1:
                raise Refused(f"a place is used as a pointer and as a number: {base}, byte {byte}, in {self.head}")
            if base in self.computed and "pointer" in kinds:
                raise Refused(f"a pointer at a computed place: {base} in {self.head}")
        for place, count in self.fills:
            base, offset = self.at(place)
            if any(self.is_inside(base, end) for end in (offset, offset + int(count))):
                raise Refused(f"a part of a pointer is filled: {base} in {self.head}")

    def is_inside(self, base, at):
        """Whether a place is between two bytes of pointers."""
        return all("pointer" in self.kinds.get((base, byte), ()) for byte in (at - 1, at))


@functools.cache  # a function is the same for all targets and levels
def check_body(body):
    if TRAP.search(body):
        raise Refused(f"a trap that is not the end of a place: {body.splitlines()[0]}")
    Slots(body).check()


def check_slots(text):
    for body in BODY.findall(text):
        check_body(body)


# ---- What is changed

def exported(number, line, listed):
    """The head of an exported function with its counts narrowed to size_t, and the lines that widen them."""
    parts = re.fullmatch(r"define noundef (\w+) @(\w+)\((.*)\) #0 \{", line)
    if not parts:
        refuse(number, line, "a head of an exported function that was not looked at")
    answer, name, parameters = parts.groups()
    if name not in listed:
        refuse(number, line, "an exported function that the header does not have")
    if answer != "i32":
        refuse(number, line, "an answer that is not of 32 bits")
    if parameters != ", ".join(f"{kind} noundef %a{at}" for at, kind in enumerate(listed[name])):
        refuse(number, line, "parameters that are not those of the header")
    counts = [at for at, kind in enumerate(listed[name]) if kind == "i64"]
    narrow = re.sub(r"i64 noundef %a", "i32 noundef %size", line)
    return narrow, [f"  %a{at} = zext i32 %size{at} to i64" for at in counts]


class Module:
    """A module on its way to another target, line by line. It exports what its header has, and needs nothing from outside."""

    def __init__(self, target, level, kind):
        self.kind = kind
        self.exports = exports(kind)
        self.made = {"target datalayout": target.layout, "target triple": target.triple}
        self.level = LEVELS[level]
        self.missing = {*FACTS, *self.exports}
        self.wanted, self.groups = {"#0"}, set()  # groups of attributes: of the functions, and those that stand
        self.traps, self.declared = set(), []  # groups that only a trap may have, and what is declared with its group
        self.widened = []
        self.lines = []

    def fact(self, number, line):
        name = re.match(r"[\w ]*\w", line)[0]
        if name not in FACTS or line != f'{name} = "{FACTS[name]}"':
            refuse(number, line, "not the target that this was written for")
        self.missing.discard(name)
        return f'{name} = "{self.made[name]}"'

    def attribute(self, number, line):
        group = ATTRIBUTES.fullmatch(line)
        if group and not (group[2] and self.kind == "library"):
            self.groups.add(group[1])
            return f"attributes {group[1]} = {{ {group[2]}nounwind{self.level} }}"
        if line.startswith("attributes #0 "):
            refuse(number, line, "not the attributes that this was written for")
        if trap := TRAP_ATTRIBUTES.fullmatch(line):
            self.traps.add(trap[1])
        elif not OTHER_ATTRIBUTES.fullmatch(line):
            refuse(number, line, "attributes that were not looked at")
        return line

    def take(self, number, line):
        check(number, line)
        self.declared += re.findall(r"^declare .*@(llvm\.[\w.]+)\(.* (#\d+)$", line)
        if line.startswith("target "):
            line = self.fact(number, line)
        elif line.startswith("attributes "):
            line = self.attribute(number, line)
        elif re.match(r"define (?!internal )", line):
            line = self.define(number, line)
        elif internal := INTERNAL.match(line):
            self.wanted.add(internal[internal.lastindex])
        elif re.match(r"declare (?!.*@llvm\.)", line):
            refuse(number, line, "a function from outside")
        self.lines.append(line)
        if line == "start:":
            self.lines += self.widened
            self.widened = []

    def define(self, number, line):
        line, self.widened = exported(number, line, self.exports)
        self.missing.discard(re.search(r"@(\w+)", line)[1])
        return line

    def whole(self):
        missing = {*self.missing, *(f"attributes {group}" for group in self.wanted - self.groups)}
        if missing or self.widened:
            raise Refused(f"not found: {', '.join(sorted(missing)) or 'the start of a function'}")
        if any(group in self.traps and name != "llvm.trap" for name, group in self.declared):
            raise Refused("the attributes of a trap at another intrinsic")
        return "\n".join(self.lines)


# ---- Alignment

PLACE = re.compile(r"  (%[\w.]+) = alloca .*, align (\d+)$")
FIELD = re.compile(r"  (%[\w.]+) = getelementptr (?:inbounds nuw )?i8, ptr (%[\w.]+), i64 (\d+)$")
COPY = re.compile(r"(?<=@llvm\.memmove\.p0\.p0\.i64\()ptr (%[\w.]+), ptr (%[\w.]+)(?=, i64)")
MOST = 8


def name_of(body):
    return re.match(r'define [^@]*@("[^"]+"|\w+)', body)[1]


class Alignment:
    """How the addresses of a module are aligned, each by a power of two up to MOST that divides it."""

    def __init__(self, text):
        self.bodies = {name_of(body): body for body in BODY.findall(text)}
        self.parameters = {name: self.start(body) for name, body in self.bodies.items()}
        while any([self.lower(name) for name in self.bodies]):
            pass

    @staticmethod
    def start(body):
        """The parameters as they start: C may hand anything to an exported function."""
        head = body.split("\n")[0]
        return dict.fromkeys(re.findall(r"%\w+", head), MOST if head.startswith("define internal ") else 1)

    def known(self, name):
        """The alignment of a function's addresses; that of one that is not listed is 1."""
        known = dict(self.parameters[name])
        for line in self.bodies[name].split("\n"):
            if place := PLACE.match(line):
                known[place[1]] = min(int(place[2]), MOST)
            elif field := FIELD.match(line):
                known[field[1]] = math.gcd(known.get(field[2], 1), int(field[3]))
        return known

    def lower(self, name):
        """Lowers the parameters of the functions that a function calls to what it hands over; whether that was news."""
        known = self.known(name)
        return any([self.lower_to(called, [known.get(word.split()[1], 1) for word in arguments.split(", ") if word])
                    for called, arguments in CALL.findall(self.bodies[name]) if not called.startswith("llvm.")])

    def lower_to(self, called, given):
        before = self.parameters.get(called)
        if before is None or len(before) != len(given):
            raise Refused(f"a call that no function is for: {called} with {len(given)} arguments")
        self.parameters[called] = {name: min(both) for name, *both in zip(before, before.values(), given)}
        return self.parameters[called] != before

    def stated(self, body):
        """A function whose copies state the alignment."""
        known = self.known(name_of(body))
        words = {name: f"ptr align {known[name]} {name}" for name in known if known[name] > 1}
        return COPY.sub(lambda copy: ", ".join(words.get(name, f"ptr {name}") for name in copy.groups()), body)


def align_copies(text):
    alignment = Alignment(text)
    return BODY.sub(lambda body: alignment.stated(body[0]), text)


SHORT = re.compile(r"\{ (i8), ptr \}")  # a number of one byte, and a pointer


def spaced(line):
    """A line in which such pairs have bytes between their parts, and the pointer is the third part."""
    wide = SHORT.sub(lambda pair: f"{{ {pair[1]}, [{SIZES['ptr'] - SIZES[pair[1]]} x i8], ptr }}", line)
    return re.sub(r", 1$", ", 2", wide) if wide != line and " = extractvalue " in line else wide


def space_pairs(text):
    return "\n".join(map(spaced, text.split("\n")))


def retarget(text, target, level, kind="library"):
    """The module for a target. It is checked as the kit wrote it; the copies' alignment and the pairs' bytes come last."""
    module = Module(target, level, kind)
    for number, line in enumerate(text.split("\n"), 1):
        module.take(number, line)
    check_slots(text)
    return space_pairs(align_copies(module.whole()))


def main(words):
    lists = [TARGETS, LEVELS, KINDS]
    if len(words) != len(lists) or any(word not in names for word, names in zip(words, lists)):
        sys.exit(f"retarget.py {' '.join('|'.join(names) for names in lists)} < MODULE > MADE")
    try:
        sys.stdout.write(retarget(sys.stdin.read(), TARGETS[words[0]], *words[1:]))
    except Refused as refused:
        sys.exit(f"retarget: {refused}")


if __name__ == "__main__":
    main(sys.argv[1:])
