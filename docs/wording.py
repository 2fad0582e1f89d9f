"""Events and items of a played script in words, for tables and pictures."""
import played


def joined(numbers):
    words = [str(n) for n in numbers]
    return " and ".join(([", ".join(words[:-1])] if words[1:] else []) + words[-1:])


def count(number, word):
    return f"{number} {word}" + ("" if number == 1 else "s")


def step(found):
    return f"pass {found[0]}, dimension {found[1]}"


def refused(answer):
    return f"refused with {answer}, {played.names()[answer]}"


def item(found):
    return f"{found.kind} of line {found.line}"


def state(events, at):
    """Whether the receiver of a job or a note is busy or idle after it; it stays so where it was so before."""
    event, last = events[at], played.before(events, at)
    stays = event.busy == (1 if last is None else last.busy)  # a node starts busy
    return f"{'stays' if stays else 'is'} {'busy' if event.busy else 'idle'}"


def delivery(events, at):
    """A delivery: what came, and what it did to the receiver."""
    event = events[at]
    words = f"the {item(event.item)} reaches {event.node}"
    if event.answer in (7, 24):
        return words + (": early, it stays" if event.answer == 7 else ": late, dropped")
    if event.answer != 0:
        return f"{words}: {refused(event.answer)}"
    busy = state(events, at) if event.item.frame is None else ""
    back = f"falls back to {step(event.step)}" if played.fell_back(events, at) else ""
    effect = " and ".join(x for x in (busy, back) if x)
    return words + (f", which {effect}" if effect else "")


def event(events, at):
    """An event, from what was printed."""
    found = events[at]
    if found.frame is not None:
        again = " **again**" if found.frame.before else ""
        return f"{found.node} sends its frame of {step(found.step)} to {joined(found.frame.receivers)}{again}"
    if found.item is not None:
        return delivery(events, at)
    if found.answer == 0:
        letter, *_, to = found.text.split()
        return f"{found.node} is out of work: idle" if letter == "i" else f"{found.node} sends a {played.MESSAGES[letter]} to {to}"
    if found.answer == 21:
        return f"{found.node} waits in {step(found.step)}: clause {found.clause}"
    if found.answer == 22:
        return f"{found.node} moves on to {step(found.step)}"
    if found.answer == 23:
        return f"{found.node} leaves: phase {found.phase} begins for it"
    return refused(found.answer)


def short(events, at):
    """An answer in a word or two, after its number."""
    found = events[at]
    words = played.names()[found.answer]
    if found.answer == 0 and found.item is not None:
        words = f"{found.item.kind} in" + (", falls back" if played.fell_back(events, at) else "")
    elif found.answer == 0:
        words = "idle" if found.text[0] == "i" else f"{played.MESSAGES[found.text[0]]} out"
    elif found.answer == 7:
        words = "early, stays"
    elif found.answer == 21:
        words = f"waits: clause {found.clause}"
    elif found.answer < 20:
        words = f"refused: {words}"
    elif found.frame is not None and found.frame.before:
        words = "sent again"
    return f"{found.answer} {words}"
