"""Reads words of either spelling alike, so that a revision in the older one can be compared with one in today's.

Today's spelling has paths as `Rattle.bits.specs.Field`, names as `field_at`, a field tied to its value (`s.stops`, which binds tighter than an argument),
operators as `◌+◌`, and clauses of `x.now`, `x.old`, `x.new` and `result`. The older one has `Rattle·bits·specs.specs.Field`, `fieldAt` or `field-at`,
a field of all that stands before it (`s .stops`), `_+_`, and clauses in brackets of `now (x .entry)` and `now (x .exit)` over the result of a λ. The words
of a text are given with brackets that show what is applied to what, and with none that say nothing.
"""

import re

from source import Token, is_name, tokens_of

# What the toolchain's library called them, and calls them now.
LIBRARY = {
    "getD": "get_or", "trailingZeros": "count_trailing_zeros", "leadingZeros": "count_leading_zeros", "fromBits": "of_bits", "from_bits": "of_bits",
    "get_d_past": "get_or_past", "nat_lt": "ltb", "nat_le": "leb", "nat_eq": "eqb", "unsigned_abs": "nat_abs", "natAbs": "nat_abs", "Bool·beq": "beq", "negℤ": "neg_ℤ", "subℕ": "sub_ℕ",
}
OPERATORS = set("+ - * / % ^ < ≤ ≡ ≢ && || ∷ ++ × ⊎ → ↔ = : ∙ == +ℤ -ℤ *ℤ ≤ℤ <ℤ ∗ | >".split())
RESERVED = set("λ ∀ let in where record data abbrev unfoldable unfolding module mutual deriving infix infixl infixr".split())


def is_older(tree):
    return any("Rattle·" in text for text in tree.files.values())


def name(word):
    """A name, spelling aside: words are joined by underscores, a lemma of a definition's name has no `_lem`."""
    word = LIBRARY.get(word, word).strip("«»").replace("◌", "_").replace("′", "'").replace("″", "''")
    if "·" in word:  # a field of a table of records
        word = word.replace("·", "_") + "_field"
    if len(word) > 1 and word[0] not in "+-*≤<":
        parts = [LIBRARY.get(part, part) for part in word.split("-") if part]
        parts = [re.sub(r"(?<=[a-z0-9])[A-Z](?=[a-z0-9]|$)", lambda m: "_" + m[0].lower(), part) if part[0].islower() else part for part in parts]
        word = "_".join(parts)
    return LIBRARY.get(word, word).removesuffix("_lem")


class Reader:
    """Items of a text: names, operators, and tuples of what is applied or tied."""

    def __init__(self, tokens):
        self.tokens, self.at = tokens, 0

    def items(self, end=None):
        out, spine = [], []

        def flush():
            if spine:
                out.append(applied(spine))
                spine.clear()

        while self.at < len(self.tokens):
            token = self.tokens[self.at]
            text = token.text
            if text == end:
                break
            self.at += 1
            if text in "({":
                inside = self.items({"(": ")", "{": "}"}[text])
                self.at += 1
                inside = ["{", *inside] if text == "{" else inside
                spine.append(inside[0] if len(inside) == 1 else tuple(inside))
            elif text == "." and spine and self.at < len(self.tokens) and self.tokens[self.at].start == token.end and is_name(self.tokens[self.at].text):
                field = name(self.tokens[self.at].text)
                if self.tokens[self.at - 2].end == token.start:
                    spine[-1] = ("tied", spine[-1], field)
                else:
                    spine[:] = [("tied", applied(spine), field)]
                self.at += 1
            elif text in (",", ";") and self.at < len(self.tokens) and self.tokens[self.at].text in ")}":
                pass  # what layout alone puts in
            elif text in ".,;@" or text in OPERATORS or text in RESERVED:
                flush()
                out.append(text)
            elif text.startswith("Ordering·"):
                spine.append(("tied", "Ordering", text.partition("·")[2]))
            elif text not in ("pub", "⌜", "⌝"):
                spine.append(name(text))
        flush()
        return out


def applied(spine):
    if len(spine) == 1:
        return spine[0]
    head = spine[0][1:] if isinstance(spine[0], tuple) and spine[0][0] == "applied" else (spine[0],)
    return ("applied", *head, *spine[1:])


def plain(item):
    """Without brackets round one item; a test of equality, and that two are unlike, is written one way."""
    if not isinstance(item, tuple):
        return item
    parts = tuple(map(plain, item))
    if len(parts) == 1:
        return parts[0]
    if len(parts) == 4 and parts[:2] == ("applied", "eqb"):
        return (parts[2], "==", parts[3])
    if parts[-2:] == ("→", "⊥") and parts.count("≡") == 1 and parts.count("→") == 1:
        parts = tuple("≢" if part == "≡" else part for part in parts[:-2])
    if parts[0] not in ("applied", "tied"):
        # brackets round one of these say nothing where no argument is meant
        opened = []
        for part in parts:
            opened += part if isinstance(part, tuple) and len(part) == 3 and part[1] in ("==", "≢") else [part]
        parts = tuple(opened)
    return parts


def places(item):
    """Of a clause: a place's value before the call is the place itself, that after it is tied by `new`."""
    if not isinstance(item, tuple):
        return item
    parts = tuple(map(places, item))
    if parts[0] == "applied" and parts[1] == "now" and len(parts) > 2:
        parts = parts[2] if len(parts) == 3 else ("applied", *parts[2:])
    if len(parts) == 3 and parts[0] == "tied" and isinstance(parts[1], str):
        if parts[2] in ("entry", "old", "now"):
            return parts[1]
        if parts[2] == "exit":
            return ("tied", parts[1], "new")
    return parts


def flat(item):
    if not isinstance(item, tuple):
        return [item]
    return ["(", *(word for part in item for word in flat(part)), ")"]


def words(tokens):
    return flat(plain(tuple(Reader(tokens).items())))


def clause_words(text):
    tokens = tokens_of(text)
    if tokens and tokens[0].text == "λ":
        dot = next(k for k, token in enumerate(tokens) if token.text == ".")
        bound, tokens = tokens[1].text, tokens[dot + 1:]
        tokens = [Token("result", *token[1:]) if token.text == bound and (not k or tokens[k - 1].text != ".") else token for k, token in enumerate(tokens)]
    return flat(plain(places(tuple(Reader(tokens).items()))))
