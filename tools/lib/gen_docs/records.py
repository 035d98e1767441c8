"""Records of clauses: records of crates/*/specs with a sentence above each field. A clause that states one record states
each of its fields, so several calls can cite one list of clauses."""
import re
from functools import cache

RECORD = re.compile(r"^ *pub record (\w+)")
FIELD = re.compile(r"^ *pub (\w+) :")
STATES = re.compile(r"\{ *(?:\(?)([A-Z]\w*)\b")


@cache
def records_in(specs):
    """The records of clauses in a folder of definitions: by name, the name and the sentence of each field."""
    found = {}
    for path in sorted(specs.rglob("*.antt")):
        fields, comment = None, []
        for line in path.read_text(encoding="utf-8").splitlines():
            record, field = RECORD.match(line), FIELD.match(line)
            if record:
                fields = found[record[1]] = []
            elif field and fields is not None:
                fields.append((field[1], " ".join(comment)))
            elif line and not line.startswith(" "):
                fields = None
            comment = [*comment, line.strip()[3:]] if line.strip().startswith("-- ") else []
    return {name: its for name, its in found.items() if its and all(sentence.endswith(".") for _, sentence in its)}


def parts_of(path, text):
    """The fields of the record that a clause of this source file states, each with its sentence; none if it states
    anything else."""
    stated = STATES.search(text)
    specs = next((it / "specs" for it in path.parents if it.name == "src" for it in [it.parent]), None)
    return records_in(specs).get(stated[1], []) if stated and specs else []
