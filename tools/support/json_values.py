"""What Python's own json reads in a text, with strings and numbers as they are spelled."""

import json.decoder
import json.scanner


class Members(list):
    """The members of an object in their order, as pairs."""


def spelled_string(text, begin, strict=True):
    """The string after whose opening quote `begin` is, and where it ends; an error where Python reads none."""
    _, end = json.decoder.py_scanstring(text, begin, strict)
    return text[begin - 1 : end], end


def no_constant(name):
    raise ValueError(f"{name} is not JSON")


def value_of(text):
    json.decoder.scanstring = spelled_string
    how = {"parse_int": str, "parse_float": str, "parse_constant": no_constant, "object_pairs_hook": Members}
    reader = json.JSONDecoder(**how)
    reader.scan_once = json.scanner.py_make_scanner(reader)
    return reader.decode(text)


def flat(value):
    if isinstance(value, Members):
        return "{" + ", ".join(f"{key}: {flat(it)}" for key, it in value) + "}"
    if isinstance(value, list):
        return "[" + ", ".join(flat(it) for it in value) + "]"
    return value if isinstance(value, str) else {True: "true", False: "false", None: "null"}[value]


def value_line(text):
    """The value that bytes write, on a line of its own. A ValueError where they are not JSON."""
    return (flat(value_of(text.decode())) + "\n").encode()
