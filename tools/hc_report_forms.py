"""The forms of replies: each value is looked at before it is used."""

from hc_report_texts import shown, undo


class Unknown(Exception):
    """A reply that has no known form."""


def fields_of(value, **types):
    """The fields of an object that has just these, each of its type."""
    if not isinstance(value, dict) or set(value) != set(types):
        raise Unknown
    for name, kind in types.items():
        if type(value[name]) is not kind:
            raise Unknown
    return [value[name] for name in types]


def items_of(value, *types):
    """The items of a list that has just these, each of its type."""
    if not isinstance(value, list) or [type(item) for item in value] != list(types):
        raise Unknown
    return value


def true_of(value):
    """Nothing, where the value is true."""
    if value is not True:
        raise Unknown


def read_words(text):
    """A printed text of bytes, read and shown."""
    return shown(undo(text))
