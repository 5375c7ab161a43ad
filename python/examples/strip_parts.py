"""Writes the text of a file of any size, on all cores: strip_parts.py FILE > TEXT"""
import os
import sys
from concurrent.futures import ThreadPoolExecutor
from itertools import islice

import vte


def strip(part: tuple[int, int]) -> bytes:
    with open(name, "rb") as file:
        file.seek(part[0])
        return vte.strip(file.read(part[1] - part[0]))


[name] = sys.argv[1:]
parts = vte.parts(name, 1 << 23)
# threads serve: others run while a long part is stripped
with ThreadPoolExecutor(os.cpu_count()) as pool:
    # not all texts at once, which might not fit into memory
    while some := list(islice(parts, 32)):
        sys.stdout.buffer.writelines(pool.map(strip, some))
