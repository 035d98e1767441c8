"""What the body of a line spells in a history of each kind, for the model (model.py): docs/reference/text_format.md."""
import re

from judgement import Does, Operation
from specification import add_one, apply_update, are_all_shown, are_inserted, are_shown, are_some_shown
from specification import are_the_elements, are_the_identifiers, are_the_paired_elements, are_the_values, hide
from specification import insert_after, insert_between, is_inserted, is_its_answer, is_the_state, mark_removed, put_in
from specification import put_pair_in, replace_writes, take_one, take_out, take_pairs_out, write

GREATEST_NUMBER = 4_294_967_295
GREATEST_SIGNED = 2_147_483_647


class NotOfTheGrammar(Exception):
    """A line, or a piece of one, is none of the grammar."""


def expect(is_so):
    if not is_so:
        raise NotOfTheGrammar


def number_of(piece):
    expect(re.fullmatch("0|[1-9][0-9]*", piece) and len(piece) <= 10 and int(piece) <= GREATEST_NUMBER)
    return int(piece)


def signed_of(piece):
    is_below = piece.startswith("-")
    size = number_of(piece[is_below:])
    expect(size <= GREATEST_SIGNED + is_below and not (is_below and size == 0))
    return -size if is_below else size


def list_of(piece):
    return () if piece == "-" else tuple(number_of(it) for it in piece.split(","))


def name_of(piece):
    expect(re.fullmatch("[a-z][a-z0-9]{0,15}", piece) and piece not in ("verdict", "join"))
    return piece


def after_sign(piece, sign):
    expect(piece.startswith(sign))
    return piece[1:]


def read_of(kind, piece):
    if kind == "counter":
        return Operation(kind, query=Does(is_the_state, (signed_of(piece),)))
    if kind == "register":
        return Operation(kind, query=Does(is_the_state, (piece if piece == "none" else number_of(piece),)))
    if kind == "any":
        return Operation(kind, query=Does(is_its_answer, (number_of(piece),)))
    elements = list_of(piece)
    sets = {"lwwset": are_the_elements, "orset": are_the_paired_elements, "mvregister": are_the_values}
    question = {**sets, "rga": are_shown, "list": are_all_shown}[kind]
    return Operation(kind, query=Does(question, (elements,)), rising=elements if kind in sets else ())


def removal_of(kind, element):
    if kind == "rga":
        return Operation("rga", Does(hide, (element,)))
    if kind == "list":
        return Operation("list", Does(mark_removed, (element,)), Does(is_inserted, (element,)))
    return Operation("lwwset", Does(take_out, (element,)), carries_stamp=True)


def write_of(kind, value):
    """A multi-value register's write has no clock. What it replaces follows from what its label sees."""
    if kind == "mvregister":
        return Operation(kind, Does(replace_writes, (value,)))
    return Operation("register", Does(write, (value,)), carries_stamp=True)


def tagged_removal_of(element, identifiers):
    given = (element, identifiers)
    asks = Does(are_the_identifiers, given)
    return Operation("orset", Does(take_pairs_out, given), asks, rising=identifiers)


def tagged_addition_of(element, identifier):
    return Operation("orset", Does(put_pair_in, (element, identifier)), identifier=identifier)


def list_operation_of(word, given):
    """What a body that only a list's history has spells."""
    if word == "part":
        expect(len(given) == 1)
        return Operation("list", query=Does(are_some_shown, (list_of(given[0]),)))
    expect(len(given) == 3)
    left, element, right = map(number_of, given)
    return Operation("list", Does(insert_between, (left, element, right)), Does(are_inserted, (left, right)))


def operation_of(kind, fields):
    """The operation that a line's body spells in a history of this kind."""
    word, *given = fields
    if kind == "list" and word in ("insert", "part"):
        return list_operation_of(word, given)
    if kind == "any" and word == "update":
        expect(not given)
        return Operation("any", Does(apply_update, ()))
    if word in ("inc", "dec"):
        expect(not given)
        return Operation("counter", Does(add_one if word == "inc" else take_one, ()))
    expect(word in ("read", "write", "add", "remove", "after") and given)
    if len(given) == 1 and word == "read":
        return read_of(kind, given[0])
    number = number_of(given[0])
    if len(given) == 1:
        expect(word != "after")
        if word == "remove":
            return removal_of(kind, number)
        if word == "write":
            return write_of(kind, number)
        return Operation("lwwset", Does(put_in, (number,)), carries_stamp=True)
    expect(len(given) == 2 and word in ("add", "remove", "after"))
    if word == "after":
        return Operation("rga", Does(insert_after, (number, number_of(given[1]))), carries_stamp=True)
    behind = after_sign(given[1], "#")
    if word == "add":
        return tagged_addition_of(number, number_of(behind))
    return tagged_removal_of(number, list_of(behind))
