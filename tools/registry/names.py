"""Names of people, compared as a reader would: case, accents, apostrophes and order don't
matter."""
from __future__ import annotations

import re
import unicodedata

# Letters that aren't put together of a plain letter and a mark.
LETTERS = str.maketrans({"ł": "l", "ø": "o", "đ": "d", "ð": "d", "þ": "th", "æ": "ae", "œ": "oe",
                         "ı": "i"})
QUOTES = re.compile("['’‘ʼ`´\"“”„]")


def fold(text: str) -> str:
    """Returns a text without case, accents and apostrophes."""
    plain = unicodedata.normalize("NFD", unicodedata.normalize("NFKC", text)).casefold()
    letters = "".join(sign for sign in plain if not unicodedata.category(sign).startswith("M"))
    return QUOTES.sub("", letters).translate(LETTERS)


def words_of(name: str) -> list[str]:
    """Returns the words of a name, folded and sorted."""
    if name.isascii():
        # Most names are, and a list has a hundred thousand of them.
        return sorted(re.findall("[a-z0-9]+", QUOTES.sub("", name.lower())))
    return sorted(re.findall(r"[^\W_]+", fold(name)))


def is_same_name(one: str, other: str) -> bool:
    return one == other or words_of(one) == words_of(other)


def has_word_of(one: str, other: str) -> bool:
    """Returns whether two names share a word that is no initial."""
    return any(len(word) > 1 or word.upper() == word.lower()
               for word in {*words_of(one)} & {*words_of(other)})
