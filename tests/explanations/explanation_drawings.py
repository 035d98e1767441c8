"""The drawing (SVG) and the document (HTML) of an explanation, read by parsers and compared with the model's picture.

Each element and each attribute has to be one that such a page has at this place, so that nothing of the text becomes
one; and in a document no `<` and no `&` stands that a parser does not read as a tag of the page or an escape.
"""
from html.parser import HTMLParser
from xml.etree import ElementTree

from assertions import require
from explanation_arcs import require_arcs
from explanation_pictures import Picture

# The number of letters of a row's words that a drawing shows; two points follow those of a longer one.
LETTERS = 24
# The most rows that show an event, and the most bytes of a document.
MOST_ROWS, MOST_BYTES = 24, 200_000
SVG = "{http://www.w3.org/2000/svg}"
# The elements of a document, each with its attributes, up to the text in words; and of the table.
HEAD = [
    ("html", {"lang": "en"}),
    ("head", {}),
    ("meta", {"charset": "utf-8"}),
    ("meta", {"name": "viewport", "content": "width=device-width"}),
    ("style", {}),
    ("title", {}),
    ("body", {}),
    ("h1", {}),
    ("pre", {}),
]
TABLE = ["table", "caption", "tr", "th", "th", "th", "th"]
HEADS = ["line", "replica", "event", "from"]
ESCAPES = {"lt": "<", "gt": ">", "amp": "&", "quot": '"'}


# Documents.


class Reader(HTMLParser):
    """Reads a document: its elements in their order, each with its attributes, and the text behind each of them."""

    def __init__(self, document):
        super().__init__(convert_charrefs=False)
        self.elements, self.texts, self.ends, self.odd = [], [""], [], []
        self.feed(document)
        self.close()

    def handle_starttag(self, tag, attrs):
        self.odd += [attrs] if len(dict(attrs)) != len(attrs) else []
        self.elements.append((tag, dict(attrs)))
        self.texts.append("")

    def handle_endtag(self, tag):
        self.ends.append(tag)
        self.texts.append("")
        self.elements.append((f"/{tag}", {}))

    def handle_data(self, data):
        # The parser gives a `<` or `&` that begins nothing as text. Whoever wrote it did not escape it.
        self.odd += [data] if "<" in data or "&" in data else []
        self.texts[-1] += data

    def handle_entityref(self, name):
        self.odd += [] if name in ESCAPES else [name]
        self.texts[-1] += ESCAPES.get(name, "")

    def handle_charref(self, name):
        self.odd.append(name)

    def handle_comment(self, data):
        self.odd.append(data)

    def handle_pi(self, data):
        self.odd.append(data)

    def unknown_decl(self, data):
        self.odd.append(data)

    def handle_decl(self, decl):
        self.odd += [] if decl == "doctype html" else [decl]

    def begun(self):
        """The elements without the ends."""
        return [it for it in self.elements if not it[0].startswith("/")]

    def text_of(self, tag):
        """The text of the only element of this name."""
        [at] = [at for at, it in enumerate(self.elements) if it[0] == tag]
        return self.texts[at + 1]


def require_head(reader, title, words):
    """Does the document begin with this title and these words, and has it nothing that is none of its own?"""
    require(not reader.odd, "something of a document that is not its own", reader.odd)
    require(reader.begun()[: len(HEAD)] == HEAD, "the elements of a document", reader.begun()[: len(HEAD) + 1])
    require([reader.text_of(it) for it in ("title", "h1")] == [title] * 2, "the title", reader.texts)
    words = words.strip("\n")
    require(reader.text_of("pre") == words, "the words of the document", reader.text_of("pre"), words)


def require_document_of_a_fault(document, title, words):
    """A document that has a title and words, and nothing else."""
    reader = Reader(document)
    require_head(reader, title, words)
    require(len(reader.begun()) == len(HEAD), "an element more", reader.begun()[len(HEAD) :])


def require_document(case, page, document):
    """Has the document the words, and of a violation a drawing and its rows?"""
    require(len(document) <= MOST_BYTES, "the size of a document", len(document))
    words = page.split("\n\n")
    words = words if not case.fault else words[:-1]
    end, _, rest = "\n\n".join(words).partition("\n")
    front, _, behind = document.partition("<figure>\n")
    if not case.fault:
        require(not behind, "a figure of a pass", behind)
        require_document_of_a_fault(document, end, rest)
        return
    drawing, _, behind = behind.partition("<figcaption>")
    picture = Picture(case, case.claims)
    require_drawing(picture, drawing)
    reader = Reader(f"{front}<figcaption>{behind}")
    require_head(reader, end, rest)
    require_table(picture, reader)


def require_table(picture, reader):
    """Are these the picture's rows?"""
    rows = [it for it in picture.rows if not isinstance(it, int)]
    names = [it for it, _ in reader.begun()[len(HEAD) :]]
    wanted = ["figcaption", *TABLE, *["tr", *["td"] * 4] * len(rows)]
    require(names == wanted and not any(it for _, it in reader.begun()[len(HEAD) :]), "the elements of a table", names)
    heads = [it.strip() for (name, _), it in zip(reader.elements, reader.texts[1:]) if name == "th"]
    require(heads == HEADS, "the heads of a table", heads)
    require(reader.text_of("figcaption").strip() == picture.left_out(), "who is not drawn", reader.texts)
    cells = [it.strip() for (name, _), it in zip(reader.elements, reader.texts[1:]) if name == "td"]
    shown = []
    for row in rows:
        without = ", or without it" if row.dashed and row.head.startswith("line") else ""
        shown += [row.head, row.target, row.words + without, row.source or ""]
    require(cells == shown, "the cells of a table", cells, shown)


# Drawings.


def numbers(element, *names):
    return [int(element.get(it)) for it in names]


def texts_of(element):
    return [it.text for it in element.iter(f"{SVG}text")]


class Drawing:
    """A drawing that was parsed: what it has in front, its columns, its rows, and the arcs of a certificate."""

    def __init__(self, drawing):
        self.root = ElementTree.fromstring(drawing)
        groups = self.root.findall(f"{SVG}g")
        self.arcs = [it for it in groups if it.get("class") == "order"]
        self.columns = [it for it in groups if it.get("class") == "replica"]
        self.rows = [it for it in groups if it not in self.columns and it not in self.arcs]
        self.groups = [*self.columns, *self.rows]
        require(groups == [*self.groups, *self.arcs], "columns stand before rows, and rows before arcs", drawing)
        require(not (self.root.text or "").strip(), "text of a drawing", self.root.text)
        self.size = numbers(self.root, "width", "height")

    def require_own(self):
        """Is there no element and no attribute but those of a drawing, and does each stand inside of it?"""
        width, height = self.size
        require(self.root.get("viewBox") == f"0 0 {width} {height}", "the box of a drawing", self.root.attrib)
        tags = [it.tag.removeprefix(SVG) for it in self.root]
        require(tags[:4] == ["title", "style", "defs", "text"] and {*tags[4:]} <= {"g"}, "what a drawing has", tags)
        allowed = {"text": {"x", "y"}, "line": {"x1", "y1", "x2", "y2", "marker-end"}, "circle": {"r", "cx", "cy"}}
        for element in [self.root[3], *(it for group in self.groups for it in group)]:
            tag = element.tag.removeprefix(SVG)
            is_own = tag in allowed and {*element.attrib} <= allowed[tag] and not len(element)
            require(is_own, "an element of a drawing that is not its own", tag, element.attrib)
            places = {it: int(element.get(it)) for it in element.attrib if it not in ("marker-end", "r")}
            inside = all(0 <= at <= (width if "x" in it else height) for it, at in places.items())
            require(inside and element.get("marker-end", "url(#tip)") == "url(#tip)", "outside", element.attrib)

    def place_of(self, columns, name):
        """Where the replica's column stands, from the left."""
        return int(columns[name].find(f"{SVG}line").get("x1")) if name in columns else None


def parsed(case, drawing):
    """The drawing, which has nothing that is not its own, and the answer above it."""
    drawn = Drawing(drawing)
    drawn.require_own()
    require([drawn.root[0].text, drawn.root[3].text] == [case.end()] * 2, "the answer of a drawing", drawing)
    return drawn


def require_drawing_alone(case, drawing):
    """The drawing without a document: of a pass nothing, and of a violation the same."""
    if case.fault:
        require_drawing(Picture(case, case.claims), drawing)
    else:
        drawn = parsed(case, drawing)
        require(not drawn.groups and not drawn.arcs, "something is drawn of a pass", drawing)


def require_drawing(picture, drawing):
    """Does the drawing show the columns, rows and arrows of the model's picture?"""
    drawn = parsed(picture.case, drawing)
    names = [it for group in drawn.columns for it in texts_of(group)]
    require(names == picture.columns, "the columns of a drawing", names, picture.columns)
    require(len(drawn.rows) == len(picture.rows), "the rows of a drawing", len(drawn.rows), picture.rows)
    require(sum(not isinstance(it, int) for it in picture.rows) <= MOST_ROWS, "too many rows", picture.rows)
    columns = dict(zip(names, drawn.columns))
    heights = [int(it.find(f"{SVG}text").get("y")) for it in drawn.rows]
    places = [drawn.place_of(columns, it) for it in names]
    require(heights == sorted({*heights}) and places == sorted({*places}), "places", heights, places)
    for group, row, height in zip(drawn.rows, picture.rows, heights):
        require_row(drawn, columns, group, row, height)
    require_columns(picture, columns, heights)
    require_arcs(picture, drawn.arcs, heights, places[0])


def require_row(drawn, columns, group, row, height):
    """Does the row say and show what it has to?"""
    if isinstance(row, int):
        says = group.get("class"), texts_of(group)
        require(says == ("fold", [f".. ({row} more)"]), "a fold", says, row)
        return
    words = row.words if len(row.words) <= LETTERS else f"{row.words[:LETTERS]}.."
    sort = "event" + " dashed" * row.dashed + " asked" * row.asked
    require((group.get("class"), texts_of(group)) == (sort, [row.head, words]), "a row", texts_of(group), row)
    [circle], target = group.findall(f"{SVG}circle"), drawn.place_of(columns, row.target)
    require(numbers(circle, "cx", "cy") == [target, height], "where a row stands", circle.attrib, row)
    x, _ = numbers(group.findall(f"{SVG}text")[1], "x", "y")
    require(target < x < target + 20, "where the words of a row stand", x, row)
    arrows, source = group.findall(f"{SVG}line"), drawn.place_of(columns, row.source)
    require(len(arrows) == (source is not None), "the arrow of a row", row)
    for arrow in arrows:
        begin, tip, *levels = numbers(arrow, "x1", "x2", "y1", "y2")
        require(levels == [height] * 2 and begin == source and arrow.get("marker-end"), "an arrow", arrow.attrib, row)
        require(0 < abs(target - tip) < 20 and (tip < target) == (source < target), "its tip", arrow.attrib, row)


def require_columns(picture, columns, heights):
    """Does each column begin above all rows, or at the row of its replica's join, and end below all of them?"""
    joins = {it.target: height for it, height in zip(picture.rows, heights) if getattr(it, "words", "") == "joins"}
    for name, group in columns.items():
        start, end = numbers(group.find(f"{SVG}line"), "y1", "y2")
        begins = start == joins[name] if name in joins else start < heights[0]
        require(begins and end > heights[-1], "a column", name, start, end, heights)
