"""A parser that knows only text and controls, for run.py."""


def parse_chunks(chunks):
    return [f"execute {byte:02x}" if byte < 0x20 else f"print {byte:04x}"
            for byte in b"".join(chunks)]
