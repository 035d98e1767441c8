"""The arcs of a drawing, which show what a certificate orders, compared with the arrows of the model's picture."""
import re

from assertions import require
from explanation_arrows import arrows_of, says

SVG = "{http://www.w3.org/2000/svg}"
# Where an arc begins, bends twice and ends.
CURVE = re.compile(r"M(\d+) (\d+)C(\d+) (\d+) (\d+) (\d+) (\d+) (\d+)")
# An arc ends above the line of its row, nearer than this.
HIGH = 12
# What is written beside the arcs; the second only where a claim leaves a choice.
LEGEND = ["must come before", "dotted: one of them"]


def require_arcs(picture, groups, heights, first):
    """Has the drawing an arc for each arrow, in the margin in front of the first column, and nothing else of a
    certificate?"""
    arrows = arrows_of(picture)
    require(len(groups) == len(arrows) + bool(arrows), "arcs of a certificate", len(groups), arrows)
    if not arrows:
        return
    legend, *arcs = groups
    require_legend(legend, any(len(it.claim["after"]) > 1 for it in arrows), heights, first)
    paths = []
    for group, arrow in zip(arcs, arrows):
        [path] = group
        require(path.tag == f"{SVG}path", "an arc", path.tag)
        require_arc(picture, path, arrow, heights, first)
        paths.append(path.get("d"))
    require(len({*paths}) == len(paths), "arcs that lie on one another", arrows)


def require_marker(defs):
    [marker] = defs
    require(marker.tag == f"{SVG}marker" and marker.get("id") == "order", "the head of an arc", marker.attrib)


def require_legend(group, has_choice, heights, first):
    """Does it say what arcs are, above all rows?"""
    style, defs, *texts = group
    require([style.tag, defs.tag] == [f"{SVG}style", f"{SVG}defs"], "what a legend has", style.tag, defs.tag)
    require_marker(defs)
    says_it = [(it.tag, it.text) for it in texts]
    require(says_it == [(f"{SVG}text", it) for it in LEGEND[: 1 + has_choice]], "a legend", says_it)
    for text in texts:
        x, y = int(text.get("x")), int(text.get("y"))
        require({*text.attrib} == {"x", "y"} and 0 < x < first and 0 < y < heights[0], "a legend", text.attrib)


def require_arc(picture, path, arrow, heights, first):
    """Does it lead from the row of the one label to that of the other, and say so?"""
    [title], claim = path, arrow.claim
    labels = [it for it in claim["after"] if picture.rows[arrow.target].head == f"line {picture.case.line_of(it)}"]
    wanted = [says(picture.case, arrow, it) for it in labels]
    require(title.tag == f"{SVG}title" and [title.text] == wanted, "what an arc says", title.text, wanted)
    is_choice = len(claim["after"]) > 1
    attributes = {"d", "marker-end", *(["class"] if is_choice else [])}
    require({*path.attrib} == attributes and path.get("marker-end") == "url(#order)", "an arc", path.attrib)
    require(path.get("class") == ("choice" if is_choice else None), "one arc of several", path.attrib, claim)
    x, start, bend, level, other, last, end, tip = (int(it) for it in CURVE.fullmatch(path.get("d")).groups())
    above = heights[arrow.target] - tip
    require(start == heights[arrow.source] and 0 < above < HIGH, "the ends of an arc", path.attrib, arrow)
    require([level, last, x, bend] == [start, tip, end, other], "the way of an arc", path.attrib)
    # The curve reaches three quarters of the way to where it bends.
    require(0 < x < bend and x + (bend - x) * 3 / 4 < first, "an arc outside of its margin", path.attrib)
