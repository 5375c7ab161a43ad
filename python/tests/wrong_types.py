"""Mistakes that a type checker must find, each in a line that says so. It isn't run."""
from typing import assert_never

import vte
from vte import calls

parser = vte.Parser(limit=5)  # wrong
parser.feed("text")  # wrong
parser.feed(b"", kinds={int})  # wrong
parser.feed_until(b"", {"Osc"})  # wrong
parser.feed_until(b"", vte.Osc, vte.Csi)[0][0].pieces  # wrong
parser.feed(b"", vte.Text)[0].byte  # wrong
vte.strip(b"", errors="ignore")  # wrong
vte.Stripper("ignore").strip("", final=True)  # wrong
vte.Stripper().strip("", final=True) + b""  # wrong
[event.byte for event in vte.open(0, kinds={vte.Put}) if event.byte.lower()]  # wrong
vte.open(0, kinds={vte.Put}).__enter__().__next__().data  # wrong
next(vte.open(0, kinds={vte.Put, vte.Hook})).final  # wrong
vte.open(0).size  # wrong
next(vte.strip_lines(["a"])) + b""  # wrong
vte.parts(["a"], 9)  # wrong
next(vte.parts("file", size=9)).start  # wrong
for event in parser.feed(b"", kinds={vte.Osc, vte.Csi}):
    if isinstance(event, vte.Osc):
        print(event.pieces, event.title)  # wrong
commands: list[vte.Osc] = parser.feed(b"", kinds={vte.Osc})
commands, read = parser.feed_until(b"", {vte.Csi, vte.Osc}, vte.Osc)
data: list[bytes] = [event.data for event in vte.open(0, kinds=vte.Data)]


def show(call: calls.Call) -> str:
    if isinstance(call, (calls.Input, calls.SetTitle)):
        return str(call)
    if isinstance(call, calls.SetMode):
        return call.mode  # wrong
    assert_never(call)  # wrong
