"""The functions of a file of sources, in the layout of `rt fmt`, and the names that the toolchain gives them."""

import difflib
import re
from collections import namedtuple

# The attributes of the sources that say where a function is inlined.
ATTRIBUTES = ("#[inline]", "#[inline(always)]", "#[inline(never)]", "#[cold]")
# The first line of an item.
BLOCK = re.compile(r"(?:pub(?:\([^)]*\))? )?(?:unsafe )?(impl|trait|mod)\b(.*)")
FUNCTION = re.compile(r'(?:pub(?:\([^)]*\))? )?(?:const )?(?:unsafe )?(?:extern "C" )?fn (\w+)')

# A function: the path of its module, the words of its `impl` or trait, whether that `impl` is of a trait, its attributes of
# these, and the number and the indent of its first line.
Function = namedtuple("Function", "name module owner is_of_trait attributes line indent")


def functions_in(text, crate, path):
    """The functions of the text of a file in order. The path is that below the crate's src/, which names the module."""
    parts = path[: -len(".rt")].split("/")
    reader = Reader("::".join([crate, *parts[: -1 if parts[-1] in ("lib", "main", "mod") else None]]))
    for number, line in enumerate(text.split("\n"), 1):
        reader.read(number, line)
    return reader.found


class Block:
    """An `impl`, a trait or a module while its lines are read: how far its lines are indented, and its head."""

    def __init__(self, indent, kind, head):
        self.indent, self.kind, self.head = indent, kind, head

    def owner(self):
        """The words by which the toolchain names it, or nearly: the type's, and then the trait's."""
        if self.kind == "trait":
            return re.match(r"\s*(\w*)", self.head)[1]
        head = without_parameters(re.sub(r"\bwhere\b.*", "", self.head).strip())
        trait, _, of = head.rpartition(" for ")
        path, _, uses = trait.partition("<")
        return type_words(of) + path.split("::")[-1].strip() + joined_words(uses)


def without_parameters(head):
    """The head of an `impl` without the parameters that it begins with."""
    depth = 0
    for at, mark in enumerate(head if head.startswith("<") else ""):
        depth += (mark == "<") - (mark == ">" and head[at - 1] != "-")
        if depth == 0:
            return head[at + 1 :].strip()
    return head


def type_words(of):
    """A type within the words of an `impl`."""
    of = re.sub(r"&(?:'\w+ )?mut ", "RefMut ", of.strip())
    of = re.sub(r"&(?:'\w+ )?", "Ref ", of)
    of = re.sub(r"\[(?=([^\]]*;)?)", lambda it: "Array [" if it[1] else "Slice [", of)
    if of.startswith("("):
        parts = len([it for it in of.strip("()").split(",") if it.strip()])
        return f"Tuple{parts}" if parts else "Unit"
    return joined_words(of) or "Any"


def joined_words(text):
    """The words of a type, but for lifetimes and parameters of one letter, as one word."""
    return "".join(it[0].upper() + it[1:] for it in re.findall(r"[A-Za-z]\w+", re.sub(r"'\w+", "", text)))


def likeness(owner, name):
    """How like the words of an `impl` or a trait are to a name of the toolchain's."""
    return difflib.SequenceMatcher(None, owner, name).ratio()


class Reader:
    """Reads the functions of a file of sources, line by line."""

    def __init__(self, module):
        self.module, self.found = module, []
        # The blocks around a line, the one whose head is not whole yet, and the attributes of what comes next.
        self.blocks, self.open, self.attributes = [], None, ()

    def read(self, number, line):
        code = line.split("//")[0].rstrip()
        words, indent = code.lstrip(), len(code) - len(code.lstrip())
        block = BLOCK.match(words)
        if self.open:
            self.open.head += f" {words}"
        elif block:
            self.open = Block(indent, block[1], block[2])
        elif words == "}" and self.blocks and self.blocks[-1].indent == indent:
            self.blocks.pop()
        else:
            self.read_inside(number, words, indent)
        if self.open and words.endswith(("{", "}", ";")):
            self.open.head = self.open.head.partition("{")[0]
            self.blocks += [self.open] * words.endswith("{")
            self.open = None

    def read_inside(self, number, words, indent):
        """Reads a line that begins and ends no block."""
        function = FUNCTION.match(words)
        if words in ATTRIBUTES:
            self.attributes += (words,)
        elif function:
            module = "::".join([self.module, *(it.head.strip() for it in self.blocks if it.kind == "mod")])
            block = next((it for it in reversed(self.blocks) if it.kind != "mod"), None)
            owner, is_of_trait = (block.owner(), " for " in block.head) if block else ("", False)
            self.found.append(Function(function[1], module, owner, is_of_trait, self.attributes, number, indent))
            self.attributes = ()
        elif words and not words.startswith("#"):
            self.attributes = ()
