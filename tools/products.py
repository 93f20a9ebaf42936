"""What is built of proved crates, and the records of it, one file for each in out/products/."""
import hashlib
import os
import pathlib
import time

from crates import ROOT, checksum, graph


def record_of(file):
    return ROOT / "out/products" / pathlib.Path(file).name


def sum_of(file):
    return hashlib.sha256(pathlib.Path(file).read_bytes()).hexdigest()


class Product:
    """A file that is about to be built of a crate, whose proof begins now."""

    def __init__(self, crate, file):
        self.crate, self.file, self.begun, self.sources = crate, ROOT / file, time.time(), checksum(graph(), crate)
        record_of(file).unlink(missing_ok=True)

    def record(self):
        """Records the file's sum for the sources. It gets the time of the beginning. So a source that has changed since is newer, and then
        nothing is recorded."""
        os.utime(self.file, (self.begun, self.begun))
        if self.sources == checksum(graph(), self.crate):
            record_of(self.file).parent.mkdir(parents=True, exist_ok=True)
            record_of(self.file).write_text(f"{self.crate} {self.sources} {sum_of(self.file)}\n")


def fault(file):
    """Returns why a file isn't what was built of these sources as they are proved, or nothing."""
    if not (ROOT / file).is_file():
        return "it isn't built"
    if not record_of(file).is_file():
        return "nothing records that it was built of proved sources"
    crate, sources, total = record_of(file).read_text().split()
    if total != sum_of(ROOT / file):
        return "it isn't the file that was built of proved sources"
    return "" if sources == checksum(graph(), crate) else "it was built of other sources, or by another toolchain"
