"""Prints the tables for x86-64, with the aims, from what callgrind and the programs wrote to target/bench: tables.py"""
import collections
import re
import subprocess
import sys

sys.dont_write_bytecode = True
import aims
import sheet

BOARDS = [2, 5, 16, 96]
CALLERS = [f"{side}_call" for side in sheet.SIDES]
WAYS = ["O2", "O3", "words"]
LIBRARY = sheet.ROOT / "target" / "staticlib" / "libbarrier_c.a"
CASES = {
    "send_bare": "send, nothing stored",
    "send_full": "send, most stored",
    "take_bare": "take, nothing stored",
    "take_full": "take, most stored",
    "note_bare": "take note, nothing stored",
    "note_full": "take note, most stored",
    "idle_bare": "idle, nothing stored",
    "idle_full": "idle, most stored",
    "frame_bare": "frame in, pass 1, nothing stored",
    "frame_first": "frame in, pass 1, most stored",
    "frame_full": "frame in, pass 2, most stored",
    "sends_bare": "barrier sends, pass 1, nothing stored",
    "sends_first": "barrier sends, pass 1, most stored",
    "sends_full": "barrier sends, pass 2, most stored",
    "waits_bare": "barrier waits, pass 1, nothing stored",
    "waits_full": "barrier waits, pass 2, most stored",
    "moves_first": "barrier moves, pass 1, most stored",
    "moves_full": "barrier moves, pass 2, most stored",
    "leaves": "barrier leaves",
}


def read_costs(path):
    """What callgrind wrote: {(caller, callee): [calls, instructions]} and {function: instructions of its own}."""
    names, edges, own = {}, collections.defaultdict(lambda: [0, 0]), collections.Counter()
    caller = callee = None
    calls = 0
    for line in open(path, encoding="utf-8"):
        named = re.match(r"(c?fn)=\((\d+)\)(?: (.*))?", line)
        if named:
            kind, number, name = named.groups()
            name = names.setdefault(number, name)
            caller, callee = (name, None) if kind == "fn" else (caller, name)
        elif line.startswith("calls="):
            calls = int(line[6:].split()[0])
        elif re.match(r"[+\-*\d]", line):
            cost = int(line.split()[1])
            if calls:
                edges[caller, callee][0] += calls
                edges[caller, callee][1] += cost
                calls = 0
            else:
                own[caller] += cost
    return edges, own


def average(edges, caller, callee):
    calls, cost = edges[caller, callee]
    return cost / calls if calls else 0


def of_sides(edges, callers, call):
    """The instructions of a call on each side."""
    return [average(edges, at, prefix + call) for at, prefix in zip(callers, sheet.SIDES.values())]


def compared(edges, callers, call):
    return sheet.compared(of_sides(edges, callers, call))


def ratio(edges, call):
    library, *others = of_sides(edges, CALLERS, call)
    return ", ".join(f"{library / other:.2f}" for other in others)


def print_averages(costs):
    rows = []
    for board in BOARDS:
        edges, _ = costs[board]
        calls = sum(edges[CALLERS[0], "ocb_" + call][0] for call in sheet.CALLS)
        rows.append([board, *(compared(edges, CALLERS, call) for call in sheet.CALLS), calls])
    sheet.table("x86-instructions", f"x86-64: instructions per call, average: {sheet.COMPARED}", ["P", *sheet.TITLES, "calls"],
                rows)


def print_ratios(costs):
    rows = []
    for board in BOARDS:
        ways = [costs[way][board][0] for way in ("O3", "words")]
        rows.append([board, *("; ".join(ratio(edges, call) for edges in ways) for call in sheet.CALLS)])
    sheet.table("x86-ratios", "The ratios with the versions by hand at -O3; and at -O2 with a memcpy that moves a word at a"
                " time", ["P", *sheet.TITLES], rows)


def cases(board, edges):
    """The single calls of a board: their name, the frames stored, the call, and its instructions on each side."""
    for line in open(sheet.OUT / f"cases.O2.{board}", encoding="utf-8"):
        name, stored = line.split()
        call = next(to[4:] for at, to in edges if at == name and to.startswith("ocb_"))
        yield name[5:], stored, call, of_sides(edges, [name] * len(CALLERS), call)


def most(board, edges):
    """The instructions of the dearest of a board's single calls: {(call, side): instructions}."""
    found = collections.Counter()
    for _, _, call, numbers in cases(board, edges):
        for side, number in zip(sheet.SIDES, numbers):
            found[call, side] = max(found[call, side], number)
    return found


def print_most(costs):
    rows = []
    for board in BOARDS:
        found = most(board, costs[board][0])
        rows.append([board, *(sheet.compared([found[call, side] for side in sheet.SIDES]) for call in sheet.CALLS)])
    sheet.table("x86-instructions-most", f"x86-64: instructions of the dearest of the single calls: {sheet.COMPARED}",
                ["P", *sheet.TITLES], rows)


def print_cases(board, edges):
    rows = [[CASES[name], stored, sheet.compared(numbers)] for name, stored, _, numbers in cases(board, edges)]
    sheet.table("x86-cases", f"x86-64: single calls at P = {board}: {sheet.COMPARED}",
                ["Call", "frames stored", "instructions"], rows)


def print_shares(costs):
    """Where the library's instructions go, in all calls of the schedule."""
    counts = {}
    for board in (BOARDS[0], BOARDS[-1]):
        edges, own = costs[board]
        inside = [name for name in own if "::" in name or name.startswith("ocb_")]
        counts[board] = collections.Counter({name: own[name] for name in inside})
        counts[board]["memory functions"] = sum(cost for (at, to), (_, cost) in edges.items()
                                                if at in inside and re.search("mem(cpy|move|set)", to))
    sheet.shares("x86-shares", "x86-64: where the library's instructions go, in percent", "P", counts)


def print_depths(path):
    lines = [line.split() for line in open(path, encoding="utf-8")]
    # of a call by side: stack, copied on average, copied at most
    rows = [[call.replace("_", " "), *figures[::3], figures[1], figures[2]] for call, *figures in lines if call != "state"]
    rows += [[f"state, P = {line[1]}", *line[2:], "", ""] for line in lines if line[0] == "state"]
    sheet.table("x86-memory", "x86-64: deepest stack of a call, what the library has memcpy copy, and the state, in bytes",
                ["", *sheet.NAMES, "library copies, average", "most"], rows)


def print_replays(path):
    """How fast recordings are read and replayed: measured by the clock, so that the numbers move with the machine."""
    rows = []
    for line in open(path, encoding="utf-8"):
        nodes, length, events, read, replay, stack = line.split()
        fast = int(events) / (float(read) + float(replay))
        rows.append([nodes, f"{int(length):,}", f"{int(events):,}", f"{1e3 * float(read):.2f}", f"{1e3 * float(replay):.2f}",
                     f"{fast:,.0f}", f"{int(stack):,}"])
    sheet.table("x86-replays", "x86-64: the longest recordings, read and replayed", ["P", "bytes", "events", "read, ms",
                "replayed, ms", "events per second", "stack of a replay, bytes"], rows)


def size(path):
    lines = subprocess.run(["size", path], check=True, capture_output=True, text=True).stdout.splitlines()[1:]
    return sum(int(line.split()[0]) for line in lines)


def print_code():
    rows = [[f"library, {sheet.ALL_CODE}", size(LIBRARY)],
            [f"library, what the {sheet.STATE_CODE} need", size(sheet.OUT / "state_calls")]]
    rows += [[f"{words}, the same calls, -{level}", size(sheet.OUT / f"{side}.{level}.o")]
             for side, (words, _) in sheet.BY_HAND.items() for level in ("Os", "O2", "O3")]
    sheet.table("x86-code", "x86-64: code and constants in bytes", ["Code", "text"], rows)


def print_aims(costs):
    average_of, most_of = {}, {}
    for board in BOARDS:
        edges, _ = costs[board]
        found = most(board, edges)
        for call in sheet.CALLS:
            for side, number in zip(sheet.SIDES, of_sides(edges, CALLERS, call)):
                average_of[board, side, call] = number
                most_of[board, side, call] = found[call, side]
    rows = aims.of_instructions("instructions at -O2, average", average_of)
    rows += aims.of_instructions("instructions at -O2, dearest single call", most_of)
    aims.save("x86-aims", "x86-64", rows)


def main():
    costs = {way: {board: read_costs(sheet.OUT / f"callgrind.{way}.{board}") for board in BOARDS} for way in WAYS}
    print_averages(costs["O2"])
    print_most(costs["O2"])
    print_ratios(costs)
    print_cases(BOARDS[-1], costs["O2"][BOARDS[-1]][0])
    print_shares(costs["O2"])
    print_depths(sheet.OUT / "depths")
    print_code()
    print_replays(sheet.OUT / "replayed")
    print_aims(costs["O2"])


main()
