"""Pieces of SVG pictures, and the command line of a script that draws one. Whole numbers only; no font is measured."""
import html
import sys

import played

# The colours follow the Okabe-Ito palette, which colour-blind readers tell apart; width, dashes and heads differ as well.
STYLE = """<style>
text { font-family: sans-serif; font-size: 13px; fill: #1f2328 }
.mono { font-family: monospace }
.strong { font-weight: bold }
.middle { text-anchor: middle }
.title { font-size: 16px; font-weight: bold }
.ground { fill: #ffffff }
.band { fill: #f3f5f8 } .stripe { fill: #1f2328; fill-opacity: 0.06 }
.box { fill: #e4eaf1; stroke: #6e7781; stroke-width: 1 }
.node { fill: #ffffff; stroke: #57606a; stroke-width: 2 }
.idle, .busy, .edge { stroke: #8c959f; fill: none }
.idle { stroke-width: 2 } .busy { stroke-width: 8 } .edge { stroke-width: 1 }
.mark { fill: #1f2328; stroke: #1f2328; stroke-width: 2 } .hollow { fill: #ffffff }
.cross { fill: none; stroke: #1f2328; stroke-width: 3 }
.job, .note, .first, .second { fill: none; stroke-width: 2 }
.job { stroke: #d55e00; stroke-width: 3 } .note { stroke: #a6407f; stroke-width: 3; stroke-dasharray: 3 3 }
.first { stroke: #0072b2 } .second { stroke: #008760; stroke-dasharray: 6 4 }
.again { stroke-width: 4 } .ring { fill: #ffffff; stroke-width: 2; stroke-dasharray: none }
.jobhead { fill: #d55e00; stroke: #d55e00 } .notehead { fill: #a6407f; stroke: #a6407f }
.firsthead { fill: #0072b2; stroke: #0072b2 } .secondhead { fill: #008760; stroke: #008760 }
.open { fill: #ffffff; stroke-width: 2 }
</style>"""

# How far the tip of an arrow head stops before the end of its line: at a mark, at a node, or past the end of a bare line.
HEADS = {"mark": 6, "node": 18, "bare": -3}


def text(x, y, words, *classes):
    name = f' class="{" ".join(classes)}"' if classes else ""
    return f'<text x="{x}" y="{y}"{name}>{html.escape(str(words))}</text>'


def line(x1, y1, x2, y2, name, head=""):
    end = f' marker-end="url(#{head})"' if head else ""
    return f'<line x1="{x1}" y1="{y1}" x2="{x2}" y2="{y2}" class="{name}"{end}/>'


def path(steps, name, head=""):
    end = f' marker-end="url(#{head})"' if head else ""
    return f'<path d="{steps}" class="{name}"{end}/>'


def box(x, y, width, height, name, corner=0):
    return f'<rect x="{x}" y="{y}" width="{width}" height="{height}" rx="{corner}" class="{name}"/>'


def circle(x, y, radius, name):
    return f'<circle cx="{x}" cy="{y}" r="{radius}" class="{name}"/>'


def group(title, *parts):
    """Parts with a title, which a browser shows when the pointer rests on them."""
    return "\n".join(["<g>", f"<title>{html.escape(title)}</title>", *parts, "</g>"])


def heads():
    """Arrow heads for every place in HEADS; those to a hermit are open."""
    full = [(name, "M0 1L12 6L0 11z", f"{name}head") for name in ("job", "note", "first", "second")]
    hollow = [(f"{name}open", "M1 2L11 6L1 10z", f"{name}head open") for name in ("first", "second")]
    for where, gap in HEADS.items():
        size = f'refX="{12 + gap}" refY="6" markerWidth="13" markerHeight="12" markerUnits="userSpaceOnUse" orient="auto"'
        for name, shape, style in full + hollow:
            yield f'<marker id="{name}{where}" {size}><path d="{shape}" class="{style}"/></marker>'


def picture(title, width, height, parts):
    """A picture with its own ground, so that it reads on any page. Its parts begin below the title, at 40."""
    head = f'<svg xmlns="http://www.w3.org/2000/svg" viewBox="0 0 {width} {height}" width="{width}" height="{height}">'
    return "\n".join([head, f"<title>{html.escape(title)}</title>", STYLE, "<defs>", *heads(), "</defs>",
                      box(0, 0, width, height, "ground"), text(12, 26, title, "title"), *parts, "</svg>", ""])


def command(name, wanted, draw):
    """Writes a picture of what the command line names to standard output; a mistake is one line and status 1."""
    if len(sys.argv) != 2:
        sys.exit(f"python3 docs/{name}.py {wanted} > {name}.svg")
    try:
        drawn = draw(sys.argv[1])
    except played.Trouble as trouble:
        sys.exit(f"{name}: {trouble}")
    sys.stdout.buffer.write(drawn.encode("utf-8"))
