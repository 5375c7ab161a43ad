r"""A parser of the bytes that programs send to a terminal.

A `Parser` reads a stream in chunks of any length, and reports text, controls and sequences as
events. They are those of the whole stream, in order, however you split it; only a `Text` and a
`Data` end where a call of `feed` does.

>>> import vte
>>> parser = vte.Parser()
>>> parser.feed(b"red: \x1b[1;3")
[Text(text='red: ')]
>>> parser.feed(b"1mhi")
[Csi(groups=((1,), (31,)), intermediates=b'', ignore=False, final='m'), Text(text='hi')]
>>> parser.feed(b"text \x1b]2;a title\x07 more text", kinds={vte.Osc})
[Osc(pieces=(b'2', b'a title'), bell_terminated=True, truncated=False)]
>>> parser.feed_until(b"one\ntwo\n", {vte.Execute})
([Text(text='one'), Execute(byte=10)], 4)

`open` returns an iterator over the events of a path, a file descriptor or a binary file. `strip`
returns the text of a whole stream, a `Stripper` that of a stream in chunks, and `strip_lines` that
of each line. `parts` divides a stream, of any size, into ranges that can be read side by side. A
`Processor` returns what a stream asks of a terminal, as calls of `vte.calls`.

>>> vte.strip(b"a\x1b[1mb"), vte.strip("\x1b]0;title\x07ü")
(b'ab', 'ü')
>>> list(vte.strip_lines(["a\x1b[1mb", "c"]))
['ab', 'c']
>>> list(vte.parts(b"one \x1b[1mtwo", size=3))
[(0, 5), (4, 11)]
>>> vte.Processor().feed(b"\x1b[5H\x1b[1mhi")
[Goto(line=4, col=0), TerminalAttribute(attribute=Bold, color=None), Input(text='hi')]

If memory is refused, they raise `Refused`, or another `MemoryError` if nothing was read. A call of
what another thread uses raises a `RuntimeError`.
"""
from ._events import Csi, Data, Esc, Event, Execute, Hook, Osc, Put, Refused, Text, Unhook
from . import calls
from ._vte import Parser, Processor, Stripper, __version__, strip
from ._parts import parts
from ._reader import Reader, open, strip_lines

__all__ = [
    "Parser", "Stripper", "strip", "strip_lines", "Reader", "open", "parts", "Processor", "calls",
    "Event", "Text", "Execute", "Hook", "Put", "Data", "Unhook", "Osc", "Csi", "Esc", "Refused",
]
