"""Tests retarget.py on modules that it must refuse: the real ones, of the library and of the rehearsal, each with a small
edit, and the reason for the refusal. The alignment that it finds is tested on small modules.

python3 targets/test_retarget.py    wants the modules that build.py keeps in target/targets/module
"""
import re
import sys

sys.dont_write_bytecode = True
import build
import retarget
import tools
from table import TARGETS, WebAssembly

# The start of a function that is lent two places, %a0 and %a1.
INSIDE = r"^(define internal void @\"[\w:]+\"\(ptr noundef %a0, ptr noundef %a1\) #0 \{\nstart:\n)"

# A function that is lent one.
LENT = '@"base::of_build"'

# An edit: what it makes, the pattern of the line that it changes (the first that is found), its new text, the reason.
# These are of both modules.
EDITS = [
    ("another triple", r'^target triple = ".*"', 'target triple = "aarch64-unknown-linux-gnu"', "not the target that"),
    ("another layout", r'^target datalayout = "e', 'target datalayout = "E', "not the target that"),
    ("no triple", r"^target triple = .*\n", "", "not found: target triple"),
    ("no attributes", r"^attributes #0 = .*\n", "", "not found: attributes #0"),
    ("another attribute", r"^attributes #0 = \{ nounwind", 'attributes #0 = { nounwind "frame-pointer"="all"',
     "not the attributes that"),
    ("an attribute of an intrinsic", r"^attributes (#[1-9]) = \{ nocallback", r'attributes \1 = { "target-cpu"="x86-64"',
     "attributes that were not looked at"),
    ("a global", r"^define ", "@table = internal constant [4 x i8] zeroinitializer\n\ndefine ", "a global"),
    ("a named type", r"^define ", "%pair = type { i32, i32 }\n\ndefine ", "a global, a named type"),
    ("assembly of the module", r"^define ", 'module asm "nop"\n\ndefine ', "a line that was not looked at"),
    ("flags of the module", r"^!llvm\.ident", "!llvm.module.flags = !{!1}\n!llvm.ident", "a line that was not looked at"),
    ("a wide parameter", r"^(define internal void @.*)\) #0", r"\1, i128 noundef %a9) #0", "a head of a function that"),
    ("a parameter by value", r"^(define internal void @.*)\) #0", r"\1, ptr byval(i64) %a9) #0", "a head of a function that"),
    ("a function from outside", r"^declare ", "declare i32 @strlen(ptr)\n\ndeclare ", "a function from outside"),
    ("another intrinsic", r"^declare ", "declare i64 @llvm.ctlz.i64(i64, i1)\n\ndeclare ", "an intrinsic that"),
    ("another instruction", r"^  %(\w+) = xor ", r"  %\1 = ashr ", "an instruction that was not looked at"),
    ("a pointer as a number", INSIDE, r"\1  %n = ptrtoint ptr %a0 to i64\n", "an instruction that was not looked at"),
    ("an address as a number", INSIDE, r"\1  %n = ptrtoaddr ptr %a0 to i64\n", "an instruction that was not looked at"),
    ("a function with an intrinsic's attributes", r"^(define internal void @.*\)) #0", r"\1 #9", "not found: attributes #9"),
    ("a number as a pointer", INSIDE, r"\1  %n = inttoptr i64 8 to ptr\n", "an instruction that was not looked at"),
    ("a pointer in a constant", INSIDE, r"\1  store i64 ptrtoint (ptr @ocb_send to i64), ptr %a0, align 8\n",
     "a word that was not looked at"),
    ("pointers compared", INSIDE, r"\1  %n = icmp eq ptr %a0, %a1\n", "pointers are compared"),
    ("a pointer below the null pointer", INSIDE, r"\1  %n = icmp ult ptr %a0, null\n", "pointers are compared"),
    ("a wide number", r"^  %(\w+) = add i64 ", r"  %\1 = add i128 ", "a width that was not looked at"),
    ("a real number", INSIDE, r"\1  %n = load double, ptr %a0, align 8\n", "a type or a word that"),
    ("a struct of three", INSIDE, r"\1  %n = load { i32, i32, i32 }, ptr %a0, align 8\n", "a type or a word that"),
    ("a pair that lies otherwise", INSIDE, r"\1  %n = load { ptr, i32 }, ptr %a0, align 8\n", "a pair that lies otherwise"),
    ("a pair of pointers", INSIDE, r"\1  %n = load { ptr, ptr }, ptr %a0, align 8\n", "a pair that lies otherwise"),
    ("a part that a pair has not", INSIDE, r"\1  %n = extractvalue { i32, i32 } %q, 2\n", "a form of extractvalue"),
    ("a pair with a pointer as a number", INSIDE, r"\1  %n = load { ptr, i64 }, ptr %a0, align 8\n"
     r"  %m = load i64, ptr %a0, align 8\n", "used as a pointer and as a number"),
    ("a volatile load", INSIDE, r"\1  %n = load volatile i32, ptr %a0, align 4\n", "a type or a word that"),
    ("a vector", INSIDE, r"\1  %n = load <4 x i32>, ptr %a0, align 16\n", "a type or a word that"),
    ("a vector of a generic function", INSIDE, r'\1  %n = call <4 x i32> @"base::of_build::<i32>"(ptr %a0)\n',
     "a type or a word that"),
    ("a place of another kind", INSIDE, r"\1  %n = alloca [4 x ptr], align 8\n", "a form of alloca"),
    ("a load with another mark", INSIDE, r"\1  %n = load i32, ptr %a0, align 4, !nontemporal !1\n", "a form of load"),
    ("a load of an array", INSIDE, r"\1  %n = load [4 x i8], ptr %a0, align 4\n", "a form of load"),
    ("a store to a global", INSIDE, r"\1  store i32 1, ptr @ocb_send, align 4\n", "a form of store"),
    ("a field by a type", INSIDE, r"\1  %n = getelementptr i32, ptr %a0, i64 1\n", "a form of getelementptr"),
    ("a trap that a run goes on after", INSIDE, r"\1  call void @llvm.trap()\n", "a trap that is not the end"),
    ("a trap's attributes at another intrinsic", r"^attributes (#\d+) = \{ nocallback nofree nounwind willreturn memory\(argmem: readwrite\)",
     r"attributes \1 = { cold noreturn nounwind memory(inaccessiblemem: write)", "the attributes of a trap at another"),
    ("an intrinsic that does not come back", r"^attributes (#[1-9]) = \{ nocallback", r"attributes \1 = { noreturn nocallback",
     "attributes that were not looked at"),
    ("a pair of four bytes and a pointer", INSIDE, r"\1  %p = alloca [16 x i8], align 8\n  %n = load { i32, ptr }, ptr %p, align 8\n",
     "a pair that lies otherwise"),
    ("a copy of a computed size", r"(@llvm\.memmove\.p0\.p0\.i64\(ptr %\w+, ptr %\w+, i64) \d+", r"\1 %size",
     "a form of call"),
    ("a copy of a size in memory", r"(@llvm\.memmove\.p0\.p0\.i64\(ptr %\w+, ptr %\w+, i64) \d+", r"\1 @size", "a form of call"),
    ("a pair of one byte and a pointer as a number", INSIDE,
     r"\1  %p = alloca [16 x i8], align 8\n  %n = load { i8, ptr }, ptr %p, align 8\n"
     r"  %f = getelementptr inbounds nuw i8, ptr %p, i64 8\n  %m = load i64, ptr %f, align 8\n", "used as a pointer and as a number"),
    ("a third part of a spaced pair", INSIDE, r"\1  %n = extractvalue { i8, ptr } %q, 2\n", "a form of extractvalue"),
    ("a call through a pointer", INSIDE, r"\1  call void %a0(i32 1)\n", "a form of call"),
    ("a function handed over", INSIDE, r"\1  call void %s(ptr @ocb_send)\n" % LENT, "a form of call"),
    ("an argument with a mark", INSIDE, r"\1  call void %s(ptr align 8 %%a0)\n" % LENT, "a form of call"),
    ("a function stored", INSIDE, r"\1  store ptr @ocb_send, ptr %a0, align 8\n", "a function is named outside"),
    ("a function returned", INSIDE, r"\1  ret ptr @ocb_send\n", "a function is named outside"),
    ("a function in the notes", r"^!1 = !\{\}", "!1 = !{ptr @ocb_send}", "a function is named outside"),
    ("an argument more", INSIDE, r"\1  call void %s(ptr %%a0, ptr %%a1)\n" % LENT, "a call that no function is for"),
    ("a call of no function", INSIDE, r'\1  call void @"base::no_such"(ptr %a0)\n', "a call that no function is for"),
    ("a slot for both", INSIDE, r"\1  store ptr %a0, ptr %a1, align 8\n  %n = load i64, ptr %a1, align 8\n",
     "used as a pointer and as a number"),
    ("half a pointer", INSIDE, r"\1  store ptr %a0, ptr %a1, align 8\n  %f = getelementptr i8, ptr %a1, i64 4\n"
     r"  %n = load i32, ptr %f, align 4\n", "used as a pointer and as a number"),
    ("a pointer copied to a number", INSIDE, r"\1  %p = alloca [16 x i8], align 8\n  %q = alloca [16 x i8], align 8\n"
     r"  store ptr %a0, ptr %p, align 8\n"
     r"  call void @llvm.memmove.p0.p0.i64(ptr %q, ptr %p, i64 16, i1 false)\n  %n = load i64, ptr %q, align 8\n",
     "used as a pointer and as a number"),
    ("a pointer at a computed place", INSIDE, r"\1  %f = getelementptr i8, ptr %a0, i64 %i\n"
     r"  store ptr %a0, ptr %f, align 8\n", "a pointer at a computed place"),
    ("the place of a pointer copied", INSIDE, r"\1  %p = alloca ptr, align 8\n"
     r"  call void @llvm.memmove.p0.p0.i64(ptr %a0, ptr %p, i64 8, i1 false)\n", "the place of a pointer is lent or copied"),
    ("the place of a pointer lent", INSIDE, r"\1  %p = alloca ptr, align 8\n  store ptr %p, ptr %a0, align 8\n",
     "the place of a pointer is lent or copied"),
    ("a place filled with another number", INSIDE, r"\1  call void @llvm.memset.p0.i64(ptr %a0, i8 1, i64 8, i1 false)\n",
     "a form of call"),
    ("a place filled to a computed size", INSIDE, r"\1  call void @llvm.memset.p0.i64(ptr %a0, i8 0, i64 %n, i1 false)\n",
     "a form of call"),
    ("a part of a pointer filled with zeros", INSIDE, r"\1  %p = alloca [16 x i8], align 8\n  store ptr %a0, ptr %p, align 8\n"
     r"  %f = getelementptr i8, ptr %p, i64 4\n  call void @llvm.memset.p0.i64(ptr %f, i8 0, i64 1, i1 false)\n",
     "a part of a pointer is filled"),
    ("the place of a pointer filled with zeros", INSIDE, r"\1  %p = alloca ptr, align 8\n"
     r"  call void @llvm.memset.p0.i64(ptr %p, i8 0, i64 8, i1 false)\n", "the place of a pointer is lent or copied"),
]

# Edits of the library's module.
LIBRARY_EDITS = [
    ("functions that are always put into others", r"^attributes #0 = \{ nounwind", "attributes #0 = { alwaysinline nounwind",
     "not the attributes that"),
    ("an export that no header has", r"^define internal noundef i32 ", "define noundef i32 ", "a head of an exported"),
    ("an export of another name", r"^(define .*)@ocb_send\(", r"\1@ocb_forget(", "the header does not have"),
    ("an unknown number of 64 bits", r"(@ocb_send\(ptr noundef %a0, i64 noundef %a1,) i32", r"\1 i64",
     "parameters that are not those"),
    ("a count missing", r"(@ocb_frame_in\(ptr noundef %a0, i64 noundef %a1, ptr noundef %a2), i64 noundef %a3", r"\1",
     "parameters that are not those"),
    ("a count of bytes of 32 bits", r"(@ocb_frame_in\(.*) i64 noundef", r"\1 i32 noundef", "parameters that are not those"),
    ("a count of words of 32 bits", r"(@ocb_frame_in\(ptr noundef %a0,) i64 noundef", r"\1 i32 noundef",
     "parameters that are not those"),
    ("a narrow answer", r"^define noundef i32 @ocb_idle", "define noundef i8 @ocb_idle", "not of 32 bits"),
    ("an answer by memory", r"^define noundef i32 @ocb_idle", "define void @ocb_idle", "a head of an exported"),
    ("an export missing", r"^define noundef i32 @ocb_idle\(.*?^}\n", "", "not found: ocb_idle"),
    ("read from outside", r"^declare ", "declare noundef i64 @read(i32 noundef, ptr noundef, i64 noundef) #1\n\ndeclare ", "a function from outside"),
]

# Edits of the rehearsal's module.
REHEARSAL_EDITS = [
    ("an export of the library", r"^(define .*)@ocb_rehearse\(", r"\1@ocb_idle(", "the header does not have"),
    ("a script's count of 32 bits", r"(@ocb_rehearse\(.*) i64 noundef", r"\1 i32 noundef", "parameters that are not those"),
    ("no rehearsal", r"^define noundef i32 @ocb_rehearse\(.*?^}\n", "", "not found: ocb_rehearse"),
]

# Small modules: what is tested, the alignment that the parameter %a of @"in" must have, and the lines of ocb_out, which C
# calls, of @"in" and of @"by". Each has a place %p on 16 bytes, of which 8 count. "in %p" is a call and "%p + 4" a field.
ALIGNED = [
    ("a place", 8, ["in %p"], [], []),
    ("a field", 4, ["%f = %p + 12", "in %f"], [], []),
    ("a field at the start", 8, ["%f = %p + 0", "in %f"], [], []),
    ("a field of a field", 2, ["%f = %p + 4", "%g = %f + 6", "in %g"], [], []),
    ("a place and a field", 4, ["in %p", "%f = %p + 4", "in %f"], [], []),
    ("a place of 1", 1, ["%q = alloca [64 x i8], align 1", "in %q"], [], []),
    ("what C gave", 1, ["in %p", "in %a"], [], []),
    ("a field of what C gave", 1, ["%f = %a + 8", "in %f"], [], []),
    ("a loaded address", 1, ["%f = load ptr, ptr %p, align 8", "in %f"], [], []),
    ("a field of a loaded address", 1, ["%f = load ptr, ptr %p, align 8", "%g = %f + 8", "in %g"], [], []),
    ("a computed offset", 1, ["%f = %p + %n", "in %f"], [], []),
    ("an address passed on", 8, ["by %p"], [], ["in %a"]),
    ("a field passed on", 4, ["by %p"], [], ["%f = %a + 4", "in %f"]),
    ("what C gave, passed on", 1, ["in %p", "by %a"], [], ["in %a"]),
    ("a function that calls itself", 4, ["in %p"], ["%f = %a + 12", "in %f"], []),
    ("functions that call each other", 2, ["in %p"], ["by %a"], ["%f = %a + 2", "in %f"]),
    ("a function on the way that calls itself", 4, ["by %p"], [], ["in %a", "%f = %a + 4", "by %f"]),
    ("a computed offset on the way round", 1, ["in %p"], ["by %a"], ["%f = %a + %n", "in %f"]),
]
COPIED = "call void @llvm.memmove.p0.p0.i64(ptr %p, ptr %a, i64 16, i1 false)"


# Which parameters of an exported function are counts, by their places.
COUNTS = {"ocb_fresh": [1], "ocb_send": [1], "ocb_take": [1], "ocb_take_note": [1], "ocb_idle": [1], "ocb_frame_in": [1, 3],
          "ocb_barrier": [1, 3], "ocb_frame_write": [3], "ocb_frame_read": [2], "ocb_dimension": [], "ocb_place": [],
          "ocb_distance": []}


def check_counts(made):
    """The header and a module for a target have these counts: what is widened in the module is what they name."""
    listed = {name: [at for at, kind in enumerate(kinds) if kind == "i64"] for name, kinds in retarget.exports().items()}
    heads = re.findall(r"^define noundef i32 @(ocb_\w+)\((.*)\) #0", made, re.M)
    narrow = {name: [int(at) for at in re.findall(r"i32 noundef %size(\d+)", parameters)] for name, parameters in heads}
    for found in (listed, narrow):
        if found != COUNTS:
            raise tools.Trouble(f"retarget: other counts than those known: {found}")


def must_refuse(text, target, kind, name, reason):
    try:
        retarget.retarget(text, target, "O2", kind)
    except retarget.Refused as refused:
        if reason in str(refused):
            return
        raise tools.Trouble(f"retarget: {name}: refused for another reason: {refused}") from None
    raise tools.Trouble(f"retarget: {name}: not refused")


def try_edit(text, target, kind, name, pattern, new, reason):
    edited, count = re.subn(pattern, new, text, count=1, flags=re.M | re.S if "?" in pattern else re.M)
    if count != 1 or edited == text:
        raise tools.Trouble(f"retarget: the module has no place for an edit: {name}")
    must_refuse(edited, target, kind, name, reason)


def small_function(head, lines):
    """A function that is lent %a, with a place and the lines of a small module."""
    lines = [re.sub(r"^(%\w) = (%\w) \+ (\S+)$", r"\1 = getelementptr i8, ptr \2, i64 \3", line) for line in lines]
    lines = [re.sub(r"^(\w+) (%\w)$", r'call void @"\1"(ptr \2)', line) for line in lines]
    lines = ["%p = alloca [16 x i8], align 16", *lines, "ret void"]
    return "\n".join([f"define {head}(ptr noundef %a) #0 {{", "start:", *("  " + line for line in lines), "}", ""])


def try_alignment(name, wanted, outer, inner, by):
    """The copy states the alignment of its place and what is wanted of the parameter, and nothing else changes."""
    heads = ["void @ocb_out", 'internal void @"in"', 'internal void @"by"']
    text = "\n".join(map(small_function, heads, [outer, [COPIED, *inner], by]))
    aligned = COPIED.replace("ptr %p", "ptr align 8 %p")
    if wanted > 1:
        aligned = aligned.replace("ptr %a", f"ptr align {wanted} %a")
    if retarget.align_copies(text) != text.replace(COPIED, aligned):
        raise tools.Trouble(f"retarget: {name}: another alignment than {wanted}")


def kept(part):
    path = build.MODULE / f"{part.name}.ll"
    if not path.exists():
        raise tools.Trouble("no module is kept: python3 targets/build.py keeps it")
    return path.read_text(encoding="utf-8")


def test_library(names):
    """How many wrong modules were tried."""
    text = kept(build.LIBRARY)
    for name in names:
        check_counts(retarget.retarget(text, TARGETS[name], "O2"))
    for edit in EDITS + LIBRARY_EDITS:
        try_edit(text, TARGETS[names[0]], "library", *edit)  # the same for all: a row has no say in what is refused
    return len(EDITS + LIBRARY_EDITS)


def test_rehearsal(target):
    """How many wrong modules were tried; one is a right one, of another kind."""
    text = kept(build.REHEARSAL)
    retarget.retarget(text, target, "O2", "rehearsal")
    for edit in EDITS + REHEARSAL_EDITS:
        try_edit(text, target, "rehearsal", *edit)
    must_refuse(kept(build.LIBRARY), target, "rehearsal", "the library as the rehearsal", "the header does not have")
    return len(EDITS + REHEARSAL_EDITS) + 1


def test(names):
    tried = test_library(names)
    for name in names:
        if isinstance(TARGETS[name], WebAssembly):
            tried += test_rehearsal(TARGETS[name])
    for case in ALIGNED:
        try_alignment(*case)
    print(f"retarget: {tried} wrong modules refused, {len(ALIGNED)} alignments found")


if __name__ == "__main__":
    tools.main(test, sys.argv[1:])
