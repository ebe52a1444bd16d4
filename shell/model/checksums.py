"""The checksum of a rule set, which every frame of its node carries (docs/FORMATS.md, "Rules")."""
from __future__ import annotations

import hashlib
from functools import lru_cache
from typing import List, Sequence

from ..language.setups import OPTIONS
from .setups import Rule


@lru_cache(1 << 12)
def canonical_text(rule: Rule) -> str:
    """The canonical text of a rule that the program has taken. Its words are already in order."""
    canonical: List[str] = []
    words = iter(rule.words)
    for word in words:
        canonical.append(word)
        if word in OPTIONS:
            canonical += [value.plain(next(words)) for value in OPTIONS[word].values]
    return " ".join(canonical)


def rules_checksum(rules: Sequence[Rule]) -> str:
    """The MD5 of the canonical text of a rule set, in hexadecimal."""
    text = "".join(f"{canonical_text(rule)}\n" for rule in rules)
    return hashlib.md5(text.encode("ascii")).hexdigest()
