"""Writes the text of files on a cluster of Dask:

    strip_on_dask.py FILE .. --out FOLDER [--scheduler ADDRESS] [--size BYTES]

FILEs and FOLDER are paths or URLs of fsspec, such as s3://bucket/name, that all workers can reach.
Each part of a FILE, of more than BYTES bytes, becomes a piece of its text in FOLDER/NAME, where
NAME is the last word of the FILE's path. The order of the pieces' names is that of the parts: `cat
FOLDER/NAME/*` writes the whole text. A piece is there whole or not at all, so that a further run of
the same command makes only what is missing. Empty the folder if a FILE or BYTES has changed.

A part whose worker dies is given to another. Workers read and write a part in blocks, so a part may
be larger than memory. Without ADDRESS, this machine does all the work.
"""
import argparse
import os
import sys
import uuid
from concurrent.futures import CancelledError
from contextlib import nullcontext, suppress

import fsspec
from distributed import Client, LocalCluster, progress
from distributed.scheduler import KilledWorker
from fsspec.core import url_to_fs
from fsspec.implementations.local import LocalFileSystem

import vte

BLOCK = 1 << 20


def strip_part(file, start, end, piece):
    """Writes the text of a part of a file as a piece, and returns how many bytes it has."""
    system, beside = url_to_fs(f"{piece.rpartition('/')[0]}/.{uuid.uuid4().hex}")
    try:
        with fsspec.open(file, "rb") as stream, system.open(beside, "wb") as output:
            stream.seek(start)
            stripper, written = vte.Stripper(), 0
            for at in range(start, end, BLOCK):
                data = stream.read(min(BLOCK, end - at))
                if len(data) < min(BLOCK, end - at):
                    raise EOFError(f"{file}: it ends before byte {end}")
                written += output.write(stripper.strip(data))
        # `mv` of older versions copies a local file
        rename = os.replace if isinstance(system, LocalFileSystem) else system.mv
        rename(beside, system._strip_protocol(piece))
    except BaseException as error:
        with suppress(OSError):
            system.rm(beside)
        if isinstance(error, OSError) and not error.filename:
            raise OSError(error.errno, error.strerror, piece) from error
        raise
    return written


def missing_pieces(file, folder, size):
    """The parts of a file whose pieces aren't there, as arguments of `strip_part`."""
    system, path = url_to_fs(file)
    # without a cache no more is read than what is asked for
    with system.open(path, "rb", cache_type="none") as stream:
        pieces = {f"{order:08}-{start}-{end}": (start, end)
                  for order, (start, end) in enumerate(vte.parts(stream, size))}
    there = {name for name in names_in(folder) if not name.startswith(".")}
    if others := there - pieces.keys():
        raise FileExistsError(f"{folder}: {min(others)} is no piece of {file} with --size {size}")
    return [(file, *part, f"{folder}/{name}") for name, part in pieces.items() if name not in there]


def names_in(folder):
    """The names in a folder, which is made if it isn't there."""
    system, path = url_to_fs(folder)
    system.makedirs(path, exist_ok=True)
    system.invalidate_cache()
    return [name.rpartition("/")[2] for name in system.ls(path, detail=False)]


def remove_unfinished(folder):
    """Removes what workers that died have left."""
    for name in names_in(folder):
        if name.startswith("."):
            system, path = url_to_fs(f"{folder}/{name}")
            system.rm(path)


def strip_files(client, files, out, size):
    # a worker may be in another folder
    files, [out] = ([name if "://" in name else os.path.abspath(name) for name in names]
                    for names in (files, [out]))
    folders = [f"{out.rstrip('/')}/{file.rpartition('/')[2]}" for file in files]
    if len(set(folders)) < len(files):
        raise ValueError("two files have the same name")
    pieces = [piece for file, folder in zip(files, folders)
              for piece in missing_pieces(file, folder, size)]
    print(f"missing pieces: {len(pieces)}", flush=True)
    if pieces:
        futures = client.map(strip_part, *zip(*pieces), pure=False)
        progress(futures)
        print(f"bytes of text: {sum(client.gather(futures))}")
    for folder in folders:
        remove_unfinished(folder)


def main(words=None):
    parser = argparse.ArgumentParser(
        usage="%(prog)s FILE .. --out FOLDER [--scheduler ADDRESS] [--size BYTES]")
    parser.add_argument("files", nargs="+", metavar="FILE")
    parser.add_argument("--out", required=True, metavar="FOLDER")
    parser.add_argument("--scheduler", metavar="ADDRESS")
    parser.add_argument("--size", type=int, default=64 << 20, metavar="BYTES")
    given = parser.parse_args(words)
    try:
        cluster = (nullcontext(given.scheduler) if given.scheduler
                   else LocalCluster(dashboard_address=None))
        with cluster as address, Client(address) as client:
            strip_files(client, given.files, given.out, given.size)
    except (OSError, EOFError, ImportError, ValueError, KilledWorker) as error:
        sys.exit(f"strip_on_dask: {error}")
    except CancelledError:
        sys.exit("strip_on_dask: the scheduler was lost")


if __name__ == "__main__":
    main()
