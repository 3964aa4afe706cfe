"""What is refused, with its number and sentence."""

from __future__ import annotations

from . import sentences


class Refusal(Exception):
    """A sheet, or what was sent with it, is refused: number, bit offset, and the sentences rule and remedy."""

    _rules, _remedies = sentences.RULES, sentences.REMEDIES

    def __init__(self, number: int, offset: int = 0):
        self.number = number
        self.offset = offset
        super().__init__(number, offset)

    @property
    def rule(self) -> str:
        return self._rules.get(self.number, "")

    @property
    def remedy(self) -> str:
        return self._remedies.get(self.number, "")

    @property
    def place(self) -> str:
        return f" at {self.offset}"

    def __str__(self) -> str:
        return f"refused {self.number}{self.place}" + (f": {self.rule}" if self.rule else "")


class StoreRefusal(Refusal):
    """A store of weights gives none: the offset is that of the record, or for 18 the slot."""

    _rules, _remedies = sentences.STORE_RULES, sentences.STORE_REMEDIES

    @property
    def place(self) -> str:
        return f" at slot {self.offset}" if self.number == 18 else f" at {self.offset}, record {self.offset // 120 + 1}"


class NotWritten(Exception):
    """A record or a field was not written, and all is as it was. number is 2 without room, 6 out of order, 7 where a table is full, 8 where a code
    stands for nothing or a field does not hold its number."""

    _says = {
        2: "the bytes end before the record or the field does",
        6: "records come in the order policy, stop, line, car, aboard, waiting, demand, closed, and the policy is the first",
        8: "the traffic is not 0 to 3, or the phase not 0 to 6; or a field has more than 64 bits, or fewer than its number needs",
        7: "a sheet has at most 1 policy, 64 stops, 8 lines, 32 cars, 512 riders aboard, 512 waiting and 65,535 records, a store 256",
    }

    def __init__(self, number: int):
        self.number = number
        super().__init__(number)

    def __str__(self) -> str:
        return f"not written: {self._says.get(self.number, f'the library answered {self.number}')}"
