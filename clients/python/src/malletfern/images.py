"""The images that a line may ask for (docs/SCRIPT.md, Replies)."""

import enum
import operator
from dataclasses import dataclass
from pathlib import Path
from typing import Self, SupportsIndex

PIXEL_BYTES = 6
TIFF_HEAD_BYTES = 180
TIFF_START = b"II*\0\x08\0\0\0"


class Format(enum.Enum):
    """A format of images, by its word in a line."""

    PPM = "ppm"
    TIFF = "tiff"

    @classmethod
    def of(cls, path: Path) -> Self:
        """The format that a file's name asks for: `.ppm`, `.tif` or `.tiff`. Raises ValueError for another name."""
        match path.suffix.lower():
            case ".ppm":
                return cls("ppm")
            case ".tif" | ".tiff":
                return cls("tiff")
        raise ValueError(f"{path.name} ends in none of .ppm, .tif and .tiff")


@dataclass(frozen=True)
class Image:
    """The image of w columns from column x and h rows from row y in a format, which the program may refuse."""

    form: Format
    x: int
    y: int
    w: int
    h: int

    @classmethod
    def asked(cls, form: Format, *rectangle: SupportsIndex) -> Self:
        """The image of a rectangle x, y, w, h. Raises TypeError where one of them is no whole number."""
        x, y, w, h = map(operator.index, rectangle)
        return cls(form, x, y, w, h)

    @property
    def line(self) -> str:
        """The line that asks for it."""
        return f"region {self.x} {self.y} {self.w} {self.h} {self.form.value}"

    @property
    def start(self) -> bytes:
        """What it begins with: a PPM's whole head, and the first bytes of a TIFF's."""
        return TIFF_START if self.form is Format.TIFF else b"P6\n%d %d\n65535\n" % (self.w, self.h)

    @property
    def length(self) -> int:
        """Its bytes."""
        head = TIFF_HEAD_BYTES if self.form is Format.TIFF else len(self.start)
        return head + PIXEL_BYTES * self.w * self.h

    @property
    def is_empty(self) -> bool:
        return self.w < 1 or self.h < 1
