"""Writes the events of its standard input as `vtlog` does, with commands of any length."""
import vte


def hex_field(data):
    return " " + (data.hex() or "-")


def shown(groups):
    return "[" + ";".join(":".join(map(str, group)) for group in groups) + "]"


def line(event):
    if isinstance(event, vte.Text):
        return "\n".join(f"print {ord(character):04x}" for character in event.text)
    if isinstance(event, (vte.Execute, vte.Put)):
        return f"{type(event).__name__} {event.byte:02x}".lower()
    if isinstance(event, vte.Unhook):
        return "unhook"
    if isinstance(event, vte.Osc):
        pieces = "".join(map(hex_field, event.pieces))
        return f"osc {event.bell_terminated} {len(event.pieces)}{pieces}".lower()
    groups = "" if isinstance(event, vte.Esc) else " " + shown(event.groups)
    head = type(event).__name__ + groups + hex_field(event.intermediates)
    return f"{head} {event.ignore} {ord(event.final):02x}".lower()


if __name__ == "__main__":
    for event in vte.open(0):
        print(line(event), flush=True)
