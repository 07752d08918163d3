"""The list of families of designs: each is a function with a line that says what it is, sizes, and a text in
SystemVerilog with the parameters of the sizes and BUG, which is 1 where a bug is put in. The module is `top`, with the
clock `clk`; registers have initial values, and no reset."""

from typing import Callable, NamedTuple


class Family(NamedTuple):
    """A family of designs; `sizes` has for each size the values of the parameters."""

    name: str
    about: str
    sizes: list
    text: Callable
    kind: str


FAMILIES = {}


def design(kind="one", **parameters):
    """Puts a function into the list. Each parameter has a value for each size."""
    sizes = [dict(zip(parameters, values)) for values in zip(*parameters.values(), strict=True)]

    def put(text):
        FAMILIES[text.__name__] = Family(text.__name__, text.__doc__, sizes, text, kind)
        return text

    return put
