"""The explanation of a text with a fault: the line, the field that cannot be read, and each byte that is shown of them.

A broken line holds any bytes, and every page shows some of them: as words, in a document and in an object. These are
the only bytes of a text in a page that the grammar does not limit to small letters, digits, spaces and `,@#-`.
"""
import json
import re

import model
from assertions import require
from explanation_drawings import require_document_of_a_fault
from explanation_text import HEAD, cut, headed

FORMS = ([], ["--json"], ["--html"], ["--svg"], ["--sequence"])
# The number of bytes of a line or field that are shown; two points follow those of a longer one.
SHOWN = 60
# What may stand behind the front of a line.
TAILS = ("", " inc", " 1", " 1 1", " 0 1 0", " -", " zz", " zz zz", " 1 counter", " counter")
SENTENCES = {
    "syntax": " cannot be parsed.",
    "too long": " has more than 1048576 bytes.",
    "full": " exceeds the limit of 1048576 commands.",
}
EMPTY = "the text is empty: its first line is RAH 1 or RAH 2 and a kind, for example RAH 2 counter"
NO_NAMES = "line 2 is replicas and the replicas' names, for example replicas ann bob"
UTF_16 = ("\xff\xfe", "\xfe\xff")
# What is noted of the bytes of a line that cannot be parsed; the first two of any line that has an end nowhere, too.
NOTES_ON_BYTES = [
    (lambda it: it.startswith(UTF_16), "the text is UTF-16: save it as UTF-8"),
    (lambda it: "\0" in it and not it.startswith(UTF_16), "the text has NUL bytes: it may be UTF-16 or binary"),
    (lambda it: it.startswith("\xef\xbb\xbf"), r"\xef\xbb\xbf is a byte order mark: save the text as UTF-8 without one"),
    (lambda it: it.endswith("\r"), r"\x0d is a carriage return (CRLF): save the text with LF line endings"),
    (lambda it: "\t" in it, r"\x09 is a tab: fields are separated by one space"),
    (lambda it: it.endswith(" "), "the line ends with a space: remove it"),
    (lambda it: it == "", "a history has no empty lines: remove this line"),
    (lambda it: it.startswith(("#", "//")), "a history has no comments: remove the line"),
]
NEWER = "this program reads the formats 1 and 2: a newer format needs a newer program"
KINDS = "docs/howto/choose_a_kind.md says which kind fits which data type"
MOST_NAMES = {
    1: (16, "RAH 1 has at most 16 replicas: with RAH 2 in line 1 there may be 64"),
    2: (64, "a history has at most 64 replicas"),
}
SMALL = "words and names must be lower case"
# The numbers that a field may have: without a sign, and as the result of a counter's read.
UNSIGNED, SIGNED = range(model.GREATEST_NUMBER + 1), range(-model.GREATEST_SIGNED - 1, model.GREATEST_SIGNED + 1)
# What people write first, each with the beginning of the note on it.
HEADER = "RAH 1 counter\nreplicas a b\n"
FIRST_TRIES = {
    "RAH 1 counter\r\nreplicas a b\r\n": r"\x0d is a carriage return",
    f"{HEADER}a inc\r\n": r"\x0d is a carriage return",
    f"\xef\xbb\xbf{HEADER}": r"\xef\xbb\xbf is a byte order mark",
    "\xff\xfeR\x00A\x00H\x00\n\x00": "the text is UTF-16",
    "\xfe\xff\x00R\x00A\x00H\x00\n": "the text is UTF-16",
    f"{HEADER}a\tinc\n": r"\x09 is a tab",
    f"{HEADER}a inc \n": "the line ends with a space",
    f"{HEADER}\na inc\n": "a history has no empty lines",
    f"{HEADER}# one more\n": "a history has no comments",
    f"{HEADER}// one more\n": "a history has no comments",
    "rah 1 counter\n": "RAH is upper case",
    "Rah 2 rga\n": "RAH is upper case",
    "RAH 1 Counter\n": SMALL,
    "RAH 1 counter\nReplicas a b\n": SMALL,
    "RAH 1 counter\nreplicas Ann\n": SMALL,
    f"{HEADER}a INC\n": SMALL,
    "RAH 1 set\n": KINDS,
    "RAH 1 or-set\n": KINDS,
    "RAH 3 counter\n": NEWER,
    "RAH 10 rga\n": NEWER,
    f"RAH 1 counter\nreplicas {' '.join(f'r{it}' for it in range(17))}\n": MOST_NAMES[1][1],
    f"RAH 2 counter\nreplicas {' '.join(f'r{it}' for it in range(65))}\n": MOST_NAMES[2][1],
    "": "the text is empty",
    "R\0A\0H\0 \0002\0\n\0": "the text has NUL bytes: it may be UTF-16 or binary",
    "R\0A\0H\0": "the text has NUL bytes: it may be UTF-16 or binary",
    "\x7fELF\2\1\1\0": "the text has NUL bytes: it may be UTF-16 or binary",
    "\xff\xfeR\0A\0": "the text is UTF-16",
    f"{HEADER}a got\0 1\n": "the text has NUL bytes",
    f"{HEADER}a got 007\n": "a number has no leading zero",
    f"{HEADER}a read -01\n": "a number has no leading zero",
    f"{HEADER}a write 1 @01\n": "a number has no leading zero",
    f"{HEADER}a add 1 #01\n": "a number has no leading zero",
    f"{HEADER}a remove 1 #1,02,99999999999\n": "a number has no leading zero",
    f"{HEADER}a got -1\n": "this number may not have a sign",
    f"{HEADER}a inc @-1\n": "this number may not have a sign",
    f"{HEADER}a got +1\n": "a number has no plus sign",
    f"{HEADER}a read +1\n": "a number has no plus sign",
    f"{HEADER}a read -0\n": "0 has no sign",
    f"{HEADER}a got 4294967296\n": "the number is greater than 4294967295",
    "RAH 1 lwwset\nreplicas a\na read 1,99999999999,02\n": "the number is greater than 4294967295",
    "RAH 1 register\nreplicas a\na read 00\n": "a number has no leading zero",
    f"{HEADER}a read 2147483648\n": "the number is greater than 2147483647",
    f"{HEADER}a read -2147483649\n": "the number is less than -2147483648",
    "RAH 1 counter\nreplicas abcdefghijklmnopq\n": "a name has at most 16 characters, this one 17",
    f"{HEADER}abcdefghijklmnopq inc\n": "a name has at most 16 characters, this one 17",
    "RAH 1 counter\nreplicas ann bob ann\n": "ann is already field 2: names must be different",
    "RAH 1 counter\nreplicas ann bob bob\n": "bob is already field 3: names must be different",
    "RAH 1 counter\nreplicas replicas replicas\n": "replicas is already field 2: names must be different",
    "RAH 1 counter\nreplicas node_1\n": "a name has only the letters a to z and digits, not _",
    "RAH 1 counter\nreplicas ren\xe9\n": r"a name has only the letters a to z and digits, not \xe9",
    "RAH 1 counter\nreplicas 1a\n": "a name begins with a letter",
    f"{HEADER}a-b inc\n": "a name has only the letters a to z and digits, not -",
    "RAH 2 counter\nreplicas a\njoin b.c a\n": "a name has only the letters a to z and digits, not .",
}
# What is written first as well, and the beginning of a note that would mislead.
MISLED = {
    "RAH 2 \n": KINDS,
    "RAH 2\n": KINDS,
    "RAH 03 counter\n": "a number",
    f"{HEADER}a inc 007\n": "a number",
    f"{HEADER}a got one\n": "a number",
    f"{HEADER}a read 1- \n": "a number",
    f"{HEADER}# one more\n": "a name",
    f"{HEADER}a\tinc\n": "a name",
    f"{HEADER}Ann inc\n": "a name",
    "\xff\xfeR\x00A\x00H\x00\n\x00": "the text has NUL bytes",
}
# What a browser, a parser of XML, or an object would take for its own, and where an escape may go wrong.
HOSTILE = ["<script>alert(1)</script>", "&amp;", "&lt;b&gt;", "&#60;b&#62;", "<!--", "-->", "<![CDATA["]
HOSTILE += ["]]>", "<?x?>", "</pre><b>", "</title><b>", "</svg>", '"><b', "'><b", '"', "'", "\\"]
HOSTILE += ['\\"', r"\u003c", "</style>", "<", "&", ">", "<b", "&b", "&;", "a<b&c>d", "\x00<"]
HOSTILE += ["\x1b[31m", "\x7f", "\xc3\xaf", "\xff", "<br/onload=x>", "&&"]
# A line of each form, with a place in each of its fields for such bytes.
FIRST_LINES = ["{} 1 counter", "RAH {} counter", "RAH 1 {}", "RAH 1 counter {}"]
SECOND_LINES = ["{} a b", "replicas {} b", "replicas a {}", "replicas a b {}"]
COMMANDS = ["{}", "{} inc", "a {}", "a inc {}", "a got {}", "a got 0 {}", "a read {}", "a read 0 {}", "a write {} @1"]
COMMANDS += ["a write 1 {}", "a write 1 @{}", "a add {} @1", "a add 1 #{}", "a add 1 #1 {}", "a remove {}"]
COMMANDS += ["a remove 1 #{}", "a after {} 1 @1", "a after 0 {} @1", "a after 0 1 {}", "a after 0 1 @{}", "verdict {}"]
COMMANDS += ["join {} a", "join n9 {}", "join n9 a {}", "{}a inc", "a{} inc", "a inc{}"]


def shown(text):
    """The front of a text in ASCII: quotation marks, backslashes and what is no letter, digit or sign as numbers."""
    marks = (it if " " <= it <= "~" and it != "\\" else f"\\x{ord(it):02x}" for it in text[:SHOWN])
    return "".join(marks) + (" .." if len(text) > SHOWN else "")


def bytes_of(words):
    """The text that these words show."""
    return re.sub(r"\\x([0-9a-f]{2})", lambda it: chr(int(it[1], 16)), words)


def begins(reader, fields):
    """Does a line of the grammar begin with these fields?"""
    for tail in TAILS if fields else []:
        try:
            reader(" ".join(fields) + tail)
            return True
        except model.NotOfTheGrammar:
            pass
    return not fields


class Stop:
    """Where the text stops, as the check says it on standard error, and what there is of its line."""

    def __init__(self, text, said, replies=()):
        line, self.why = said.decode().removeprefix("line ").strip().split(": ")
        self.line, self.lines = int(line), text.decode("latin-1").split("\n")
        self.says = self.lines[self.line - 1]
        # What was answered before, where that was a violation.
        self.before = next((it for it in replies if it.startswith("no ")), None)

    def reader(self):
        """What reads the line by the grammar."""
        if self.line == 1:
            return model.form_and_kind_of
        form, kind = model.form_and_kind_of(self.lines[0])
        if self.line == 2:
            return lambda it: model.names_of(form, it)
        return lambda it: model.command_of(form, kind, it)

    def require_object(self, told):
        """Is this what the object says? Of a field: none before it is one that cannot be read, and it is."""
        text = self.says[:SHOWN] + (" .." if len(self.says) > SHOWN else "")
        wanted = ("fault", self.line, self.why, text)
        require((told["answer"], told["line"], told["why"], told["text"]) == wanted, told, wanted)
        require(("field" in told) == (self.why == "syntax") == ("wanted" in told), told)
        if self.why == "syntax":
            reader, fields, number = self.reader(), self.says.split(" "), told["field"]
            require(begins(reader, fields[: number - 1]), "a field before it cannot be read", told)
            require(number == len(fields) + 1 or not begins(reader, fields[:number]), "it can be read", told)

    def words(self, told):
        """The page, whose field is that of the object."""
        sentence = SENTENCES.get(self.why, " has no line feed at its end: add one, unless the text was cut off.")
        if self.why == "truncated" and not self.says:
            sentence = " is missing: the text ends before it."
        yield f"line {self.line}{sentence}"
        yield ""
        if self.says:
            yield headed("text", shown(self.says))
        if self.why == "syntax":
            yield from self.words_on_field(told["field"], told["wanted"])
            yield from (headed("note", it) for it in self.notes(told["field"]))
        if self.why == "truncated" and self.line == 1 and not self.says:
            yield headed("note", EMPTY)
        if self.why == "truncated" and self.line == 2 and not self.says:
            yield headed("note", NO_NAMES)
        if self.why in ("truncated", "too long"):
            yield from (headed("note", note) for is_so, note in NOTES_ON_BYTES[:2] if is_so(self.says))
        if self.before:
            behind = "remove the lines from here on to have it explained"
            yield headed("before it", f"a violation, {self.before}: {behind}")

    def words_on_field(self, number, wanted):
        fields = self.says.split(" ")
        field = fields[number - 1] if number <= len(fields) else None
        says = "missing" if field is None else shown(field)
        empty = "empty: there is one space too many" if self.says else "empty"
        yield headed(f"field {number}", says if says else empty)
        yield headed("expected", wanted)

    def notes(self, number):
        """The likely causes, where this field of the line is at fault."""
        fields = self.says.split(" ")
        field = fields[number - 1] if number <= len(fields) else None
        yield from (note for is_so, note in NOTES_ON_BYTES if is_so(self.says))
        if self.line == 1 and field is not None:
            yield from self.notes_on_first_line(number, field)
        if self.line == 2:
            most, note = MOST_NAMES[int(self.lines[0].split()[1])]
            yield from [note] if number > most + 1 else []
        if re.search("[A-Z]", field or "") and (self.line, number) != (1, 1):
            yield SMALL
        if field:
            yield from self.notes_on_rules(fields[: number - 1], field)

    def notes_on_rules(self, before, field):
        """Which rule a number or a name breaks, where the grammar has one in the place of this field."""
        reader, mark = self.reader(), field[0] if field[0] in "@#" else ""
        if begins(reader, [*before, f"{mark}7"]):
            numbers = SIGNED if begins(reader, [*before, "-7"]) else UNSIGNED
            yield from first_of(note_on_number(it, numbers) for it in field.removeprefix(mark).split(","))
        name = next(it for it in ("x1", "x2", "x3") if it not in before)
        if self.line > 1 and begins(reader, [*before, name]) and not self.says.startswith(("#", "//")):
            yield from first_of(notes_on_name(field, before))

    @staticmethod
    def notes_on_first_line(number, field):
        if number == 1 and field.upper() == "RAH":
            yield "RAH is upper case"
        if number == 2 and re.fullmatch("[1-9][0-9]*", field) and 2 < int(field) < 2**32:
            yield NEWER
        if number == 3 and re.fullmatch("[a-z_-]+", field):
            yield KINDS

    def page(self, told):
        return "".join(f"{cut(it)}\n" for it in self.words(told))


def first_of(notes):
    """The first note, if there is one."""
    return [it for it in notes if it is not None][:1]


def note_on_number(word, numbers):
    """The rule by which a word of digits and a sign is none of these numbers."""
    if not re.fullmatch("[+-]?[0-9]+", word) or (str(int(word)) == word and int(word) in numbers):
        return None
    if word[0] == "+":
        return "a number has no plus sign"
    if word[0] == "-" and -1 not in numbers:
        return "this number may not have a sign"
    if word == "-0":
        return "0 has no sign"
    if word != str(int(word)):
        return "a number has no leading zero"
    if int(word) < 0:
        return f"the number is less than {numbers[0]}"
    return f"the number is greater than {numbers[-1]}"


def notes_on_name(word, before):
    odd = re.search("[^A-Za-z0-9\0-\x1f]", word)
    yield f"a name has only the letters a to z and digits, not {shown(odd[0])}" if odd else None
    yield "a name begins with a letter" if word[0].isdigit() else None
    yield f"a name has at most 16 characters, this one {len(word)}" if len(word) > 16 else None
    if word in before[1:]:
        yield f"{word} is already field {before.index(word, 1) + 1}: names must be different"


def look_at_stop(program, text, said, replies):
    """Explains a text with a fault in each form."""
    runs = [program(["explain", *it], text) for it in FORMS]
    require(all(run[1:] == (said, 2) for run in runs), "what is said, and the status", runs)
    page, told, document, drawing, sequence = (run[0].decode() for run in runs)
    require(drawing == sequence == "", "something is drawn", drawing, sequence)
    stop = Stop(text, said, replies)
    stop.require_object(json.loads(told))
    wanted = stop.page(json.loads(told))
    require(page == wanted, "the words of a fault", page, wanted)
    require(page.isascii() and page.replace("\n", "").isprintable(), "characters", page)
    require_shown(stop, page)
    require_document_of_a_fault(document, f"line {stop.line}: {stop.why}", wanted)


def require_shown(stop, page):
    """Are the bytes that a page shows the text's own, as far as the width of the page goes?"""
    for line in page.splitlines():
        if line.startswith("text "):
            # A line may be cut within the number of a byte.
            words = re.sub(r"(\\(x[0-9a-f]?)?)?$", "", re.sub(r" ?\.{0,2}$", "", line[HEAD:]))
            require(stop.says.startswith(bytes_of(words)), "bytes that are not the text's", words, stop.says)


def answered(text):
    """The line of the fault of a text that has one, and the replies before it; else None."""
    replies = []
    try:
        model.run(text, replies)
    except model.Fault as why:
        return f"{why}\n".encode(), replies
    return None


def hostile_lines(form, kind, hostile):
    """The texts that have these bytes in each field of each line."""
    head = f"RAH {form} {kind}\n"
    for line in FIRST_LINES:
        yield f"{line.format(hostile)}\nreplicas a b\n"
    for line in SECOND_LINES:
        yield f"{head}{line.format(hostile)}\n"
    for line in COMMANDS:
        yield f"{head}replicas a b\n{line.format(hostile)}\n"


def hostile_texts():
    """Some such bytes in each field of each line; all of them in some, across the last byte shown, and cut off."""
    for hostile in HOSTILE[:4] + ['"', "'"]:
        yield from hostile_lines("2", "orset", hostile)
    head = "RAH 1 counter\n"
    for hostile in HOSTILE:
        for before in {SHOWN - len(hostile), SHOWN - len(hostile) // 2, SHOWN - 1}:
            yield f"{head}replicas a b\n{'x' * before}{hostile}{'y' * 9}\n"
        for line in ("a {}", "{} inc", "a\t{}", "a got {}\r", "a read 7\n{} inc"):
            yield f"{head}replicas a b\n{line.format(hostile)}\n"
        yield from (f"{hostile} 1 counter\n", f"{head}replicas {hostile}\n")
        yield from (hostile, f"{head}{hostile}", f"{head}replicas a\n{hostile}")


def widths_of_a_fault():
    """Lines and fields of about as many bytes as are shown, and that end about where a page does."""
    for count in range(SHOWN - 2, SHOWN + 4):
        for line in ["x" * count, f"a {'9' * count}", f"a got {'0' * count}", f"a add 1 #{'1' * count}"]:
            yield f"RAH 1 counter\nreplicas a b\n{line}\n"
        yield f"{'R' * count}\nreplicas a b\n"
        yield f"RAH 1 counter\n{'r' * count}\n"
        yield f"RAH 1 counter\nreplicas {'r' * count}\n"
    # A byte that is no letter takes four characters, and the facts of a line have 84.
    for odd in (14, 20, 21, 22):
        for plain in range(80 - 4 * odd, 89 - 4 * odd):
            if 0 < odd + plain <= SHOWN and plain >= 0:
                yield f"RAH 1 counter\nreplicas a b\na {'x' * plain}{chr(1) * odd}\n"


def look_at_texts(program, texts):
    """Explains those of the texts that have a fault. There have to be some of them."""
    count = 0
    for text in texts:
        given = text.encode("latin-1")
        stopped = answered(given)
        if stopped:
            count += 1
            look_at_stop(program, given, *stopped)
    require(count > 0, "no text has a fault")


def look_at_hostile_texts(program):
    look_at_texts(program, hostile_texts())


def look_at_widths_of_a_fault(program):
    look_at_texts(program, widths_of_a_fault())


def look_at_first_tries(program):
    """Each is explained by the note that names its cause."""
    look_at_texts(program, FIRST_TRIES)
    for text, note in FIRST_TRIES.items():
        page = program(["explain"], text.encode("latin-1"))[0].decode()
        require(headed("note", note) in page, text, page)
    look_at_texts(program, MISLED)
    for text, note in MISLED.items():
        page = program(["explain"], text.encode("latin-1"))[0].decode()
        require(headed("note", note) not in page, text, page)
