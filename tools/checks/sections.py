"""What the Python hosts share: cases on standard input, made of sections, each after its length in bytes in four
bytes, low first."""

import struct
from typing import List


class Stream:
    """Bytes that are read one after the other."""

    def __init__(self, data: bytes):
        self.data, self.at = data, 0

    def take(self, form: str) -> int:
        """The next bytes as a number of this form."""
        (number,) = struct.unpack_from(form, self.data, self.at)
        self.at += struct.calcsize(form)
        return number

    def tag(self) -> int:
        """The next tag."""
        return self.take("<H")

    def section(self) -> bytes:
        """The next section."""
        end = self.take("<I") + self.at
        found, self.at = self.data[self.at : end], end
        return found

    def words(self) -> List[int]:
        """The words of the next section."""
        return [word for (word,) in struct.iter_unpack("<H", self.section())]

    def number(self) -> int:
        """The number of a section that has one word."""
        (number,) = self.words()
        return number

    def goes_on(self) -> bool:
        """Whether another case begins."""
        return self.at < len(self.data)
