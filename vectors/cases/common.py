"""What the makers of cases share."""

from itertools import product


def every(alphabet, length):
    """Every byte string of one length over an alphabet of byte strings."""
    return (b"".join(letters) for letters in product(alphabet, repeat=length))


def up_to(alphabet, length):
    """Every byte string over an alphabet up to a length, the empty one left out."""
    for size in range(1, length + 1):
        yield from every(alphabet, size)


def letters(text):
    """A byte string as an alphabet."""
    return [text[at:at + 1] for at in range(len(text))]


def around(*middles):
    """Each number with its neighbours on both sides, none below 0."""
    return sorted({number for middle in middles for number in range(middle - 1, middle + 2) if number >= 0})


# One byte of each kind that a class table or the UTF-8 test could tell apart, and the neighbours of the white ones.
KINDS = letters(b'\x00\x08\t\n\x0b\x0c\r\x0e\x1f !"#\'();/09:@AFGZ[\\`abfguxz{|}~\x7f'
                b"\x80\x8f\x90\x9f\xa0\xbf\xc0\xc1\xc2\xdf\xe0\xe1\xec\xed\xee\xef\xf0\xf1\xf3\xf4\xf5\xff")
