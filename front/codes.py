"""Codes: the passwords that letters give (tools/users_from_csv), such as 7k3f-9mhd-q2xt.

A code has 60 bits that chance chose, so nobody guesses it, however often they try. It is compared
by a digest, which takes a hundredth of argon2id.
"""
from __future__ import annotations

import hashlib
import hmac
import re
import secrets

# Of Crockford's base 32: O is read as 0, and I and L as 1.
SIGNS, ALIKE = "0123456789abcdefghjkmnpqrstvwxyz", str.maketrans("oil", "011")
PARTS, LENGTH = 3, 4
# What is compared as a code only; sign_in.cfg has the same form. A code without hyphens may be
# anybody's own password too.
FORM = re.compile(rf"[0-9A-Za-z]{{{LENGTH}}}(-[0-9A-Za-z]{{{LENGTH}}}){{{PARTS - 1}}}")
PLAIN = re.compile(rf"[0-9A-Za-z]{{{PARTS * LENGTH}}}")
# What a digest begins with, in the file `users`.
MARK = "{CODE}"
# So that who steals the digests needs a hundred times as long; a fifth of a millisecond.
ROUNDS = 100


def made() -> str:
    """A new code."""
    return "-".join("".join(secrets.choice(SIGNS) for _ in range(LENGTH)) for _ in range(PARTS))


def digest(user: str, word: str) -> str:
    """What is kept of a user's code, however it is written."""
    plain = word.lower().translate(ALIKE).replace("-", "")
    return MARK + hashlib.pbkdf2_hmac("sha256", plain.encode(), user.lower().encode(), ROUNDS).hex()


def is_code(word: str) -> bool:
    """Whether a word is a code, right or wrong, and no other password."""
    return FORM.fullmatch(word) is not None


def is_right(user: str, kept: str, word: str) -> bool:
    """Whether a word is the code of which this is the digest, with or without its hyphens. It takes
    as long if there is none."""
    written = is_code(word) or PLAIN.fullmatch(word) is not None
    return written and hmac.compare_digest(digest(user, word), kept)
