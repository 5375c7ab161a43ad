"""The calls of a handler, which are the methods of a trait."""
import re
from typing import NamedTuple

TRAIT = "crates/vte_handler/src/handler.rt"
# what stands above a method, its name, and its parameters
METHOD = re.compile(r"((?:    ///.*\n)*)    fn (\w+)\(\s*&mut self,?\s*([^)]*)\)")


class Call(NamedTuple):
    """A method: its name, its arguments with their types, and what its documentation says."""

    method: str
    arguments: dict
    about: str

    @property
    def variant(self):
        """Its name as a value."""
        return self.method.title().replace("_", "")


def calls_of(trait):
    """Returns the calls by their names, from the text of the trait."""
    text = trait[:trait.index("pub trait HandlerText")]
    return {name: Call(name, dict(re.findall(r"(\w+): (.*?)(?:,\s+(?=\w+:)|,?\s*$)", parameters)),
                       re.sub(r"\s*/// ?", " ", about).strip())
            for about, name, parameters in METHOD.findall(text)}
