"""What the library should cost at most, held to what was measured."""
import sheet

# Beside which side, on which board (None: on each), and how many times its instructions a call may take.
RATIOS = [("in_place", 96, 1.0), ("in_place", 5, 0.6), ("compact", None, 1.3)]
STACK_BYTES = 512
CODE_BYTES = 6 * 1024
TITLES = ["Aim", "at most", "found", "where", "reached"]


def row(words, limit, found, where):
    return [words, limit, f"{found:.2f}" if isinstance(limit, float) else found, where, "yes" if found <= limit else "no"]


def of_instructions(words, figures):
    """The aims of a kind of figures, {(board, side, call): instructions}: a row each, with the call that is dearest by it."""
    rows = []
    for side, only, limit in RATIOS:
        ratios = {(board, call): count / figures[board, side, call] for (board, its, call), count in figures.items()
                  if its == "library" and only in (None, board)}
        (board, call), most = max(ratios.items(), key=lambda item: item[1])
        on = "each board" if only is None else f"P = {only}"
        rows.append(row(f"{words}: times {side.replace('_', ' ')}, {on}", limit, most,
                        f"{call.replace('_', ' ')}, P = {board}"))
    return rows


def save(name, words, rows):
    """The table of the aims, and a line that says which are missed."""
    sheet.table(name, f"{words}: aims", TITLES, rows)
    missed = [f"{aim} ({found}, aim {limit})" for aim, limit, found, _, reached in rows if reached == "no"]
    line = f"Aims missed: {'; '.join(missed)}." if missed else "No aim is missed."
    sheet.save(f"{name}-missed", f"{words}: aims that are missed", line + "\n")
