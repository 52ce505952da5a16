"""Yezhgulo is a pretty printer: it lays out documents within a line width, with each group on one line where it fits.

A document is made of texts, lines, indents and groups. A `str` stands for its text wherever a document is taken.

>>> from yezhgulo import *
>>> pair = group("first", line, "second")
>>> print(pair.layout(12))
first second
>>> print(pair.layout(11))
first
second

`group` lays its documents flat where they fit: then a `line` is a space, and a `line_or_nil` is nothing. Elsewhere
both are line breaks. `nest` moves the lines that begin inside it:

>>> call = group("f(", nest(4, line_or_nil, "one,", line, "two"), line_or_nil, ")")
>>> print(call.layout(11))
f(one, two)
>>> print(call.layout(10))
f(
    one,
    two
)

`+` puts documents one after the other, as `concat` does of any number, `join` puts a separator between them,
`bracketed` lays out a list, and `fill` the words of a paragraph:

>>> print((text("import") + nest(2, softline, join(concat(",", softline), ["alpha", "beta", "gamma"]))).layout(18))
import alpha,
  beta, gamma
>>> print(bracketed("[", ["1", "2", "3"], "]", indent=4, trailing=True).layout(8))
[
    1,
    2,
    3,
]
>>> print(concat("# ", align(fill("a text of some words".split()))).layout(12))
# a text of
  some words

A formatter walks its own tree, and makes a document of each node:

>>> def document(value):
...     if isinstance(value, list):
...         return bracketed("[", map(document, value), "]")
...     return str(value)
>>> print(document([1, [2, 3], [[4], 5]]).layout(15))
[
  1,
  [2, 3],
  [[4], 5]
]

`first | second` is an alternative: the second document where the first does not fit.

>>> show = text("a long sentence") | "short"
>>> print(show.layout(15))
a long sentence
>>> print(show.layout(14))
short

A comment at the end of a line is a `line_suffix`, and `flat_alt`, `if_break` and `if_flat` differ between broken and
flat lines. `help(yezhgulo.documents)` has a table of the constants, such as `line`, and an example of each function.

`Doc.layout` answers a `str`, and `str(doc)` is the layout within 80 columns. Where a document has no layout it raises a
`LayoutError`, which has the text before the node that fails. `format_json` lays out a JSON text, and `format_toml` a
TOML text:

>>> print(format_json('{"a": [1, 2], "b": null}', 16), end="")
{
  "a": [1, 2],
  "b": null
}
>>> print(format_toml("a=[1,2] # two", 16), end="")
a = [1, 2] # two

`pprint` and `pformat` lay out values of Python. A class of your own says by `__pretty__` what it is:

>>> pprint({"name": "Ada", "list": [1, 22, 333]}, 30)
{
    'name': 'Ada',
    'list': [1, 22, 333],
}

Documents may be as deep as memory allows. The printer is a library, `libprettyless.so`, whose layouts are proved
against a definition. The proof covers the library's calls, and not the code of this package.
"""

from yezhgulo import documents, errors, values
from yezhgulo.documents import *
from yezhgulo.errors import *
from yezhgulo.json_text import format_json
from yezhgulo.toml_text import format_toml
from yezhgulo.values import *

__version__ = "0.4.0"

__all__ = ["format_json", "format_toml"]
__all__ += documents.__all__
__all__ += errors.__all__
__all__ += values.__all__
