"""Shared. The disk below the torture test: what disk.c says is on it, and what a power cut leaves."""
from __future__ import annotations
import os, random, shutil

from trying import content, put

PAGE = 4096


def common(one: bytes, other: bytes) -> int:
    """How many bytes two files begin with alike."""
    least, most = 0, min(len(one), len(other))
    while least < most:
        half = (least + most + 1) // 2
        least, most = (half, most) if one[:half] == other[:half] else (least, half - 1)
    return least


def some_pages(image: bytes, file: bytes, draw: random.Random) -> bytes:
    """Some of the pages that were written since, and not synced."""
    length = draw.choice([len(image), len(file), draw.randrange(min(len(image), len(file)), max(len(image), len(file)) + 1)])
    whole = bytearray(image[:length].ljust(length, b"\0"))
    for at in range(common(image, file) // PAGE * PAGE, length, PAGE):
        if draw.random() < 0.5 and at < len(file):
            end = min(at + PAGE, len(file), length)
            whole[at:end] = file[at:end]
    return bytes(whole)


def garbage(image: bytes, file: bytes, draw: random.Random) -> bytes:
    """The same, and bytes of others in a piece of what was not synced."""
    left, at = bytearray(some_pages(image, file, draw)), common(image, file)
    if len(left) > at or draw.random() < 0.5:
        begin = draw.randrange(at, len(left) + 1)
        left[begin:begin + draw.randrange(600)] = draw.randbytes(draw.randrange(1, 600))
    return bytes(left)


class Disk:
    """A folder, and the images of its files."""

    def __init__(self, folder: str, images: str, library: str) -> None:
        self.folder, self.images, self.library = folder, images, library
        os.makedirs(folder)
        os.makedirs(images)

    def variables(self, fault: str = "", at: int = 0, begins: str = "") -> dict[str, str]:
        """What a process is given that is to work on this disk. Calls are counted from when a file is made whose name ends so."""
        counts = {"DISK_BEGINS": begins} if begins else {}
        return {**os.environ, **counts, "LD_PRELOAD": self.library, "DISK_FOLDER": os.path.realpath(self.folder), "DISK_IMAGES": self.images,
                "DISK_FAULT": fault, "DISK_AT": str(at)}

    def image(self, number: int) -> bytes:
        return content(os.path.join(self.images, str(number))) or b""

    def image_of(self, name: str) -> bytes:
        """What of a file is on the disk for sure."""
        path = os.path.join(self.folder, name)
        return self.image(os.stat(path).st_ino) if os.path.exists(path) else b""

    def numbers(self) -> dict[str, int]:
        return {it: os.stat(os.path.join(self.folder, it)).st_ino for it in os.listdir(self.folder)}

    def synced_names(self) -> dict[str, int]:
        lines = (content(os.path.join(self.images, "names")) or b"").decode().splitlines()
        return {name: int(number) for number, name in (it.split(" ", 1) for it in lines)}

    def cut_power(self, draw: random.Random, log: str) -> str:
        """Leaves what is on the disk, and some of what was on its way there: what kind of rest that was. More may be on its way to the log alone than
        there is."""
        files = {number: content(os.path.join(self.folder, name)) for name, number in self.numbers().items()}
        names = self.names_left(draw)
        how = draw.choice([None, some_pages, garbage])
        left = {}
        for number in sorted({*names.values()}):
            image = self.image(number)
            file = files.get(number, image)
            left[number] = how(image, file, draw) if how and (file != image or number == names[log]) else image
        self.begin_with(names, left)
        return how.__name__ if how else "what was synced"

    def names_left(self, draw: random.Random) -> dict[str, int]:
        """The names on the disk: all that are there, or those that were synced, or of each whichever of both."""
        now = self.numbers()
        synced = self.synced_names() or now
        which = draw.choice([[now], [synced], [now, synced]])
        found = {name: draw.choice(which).get(name) for name in sorted({*now, *synced})}
        return {name: number for name, number in found.items() if number is not None}

    def begin_with(self, names: dict[str, int], files: dict[int, bytes]) -> None:
        """The folder has these names, of files that are on the disk."""
        for folder in (self.folder, self.images):
            shutil.rmtree(folder)
            os.makedirs(folder)
        first: dict[int, str] = {}
        for name, number in names.items():
            path = os.path.join(self.folder, name)
            if number in first:
                os.link(first[number], path)
            else:
                first[number] = put(path, files[number])
        for number, it in ((os.stat(path).st_ino, files[number]) for number, path in first.items()):
            put(os.path.join(self.images, str(number)), it)
        lines = "".join(f"{number} {name}\n" for name, number in self.numbers().items())
        put(os.path.join(self.images, "names"), lines.encode())
