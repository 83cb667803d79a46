"""What check-store says of a store, and what it has to say."""
from __future__ import annotations

from support.books import Book
from support.program import Said

REFUSED = Said(6, b"")


def checked(book: Book) -> Said:
    return book.said("check-store")


def told(issues: int, **desks: int) -> bytes:
    """The lines on so many issues, and on desks with so many versions."""
    return "".join([f"ISSUES {issues}\n", *(f"DESK {name} {count}\n" for name, count in desks.items())]).encode()


def sound(issues: int, **desks: int) -> Said:
    """The same of a store of which all was read."""
    return Said(0, told(issues, **desks) + b"SOUND\n")
