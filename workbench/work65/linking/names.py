"""The names in the sums of a config: what places define, what modules export, and the config's own
symbols."""
from typing import Callable, Dict, List, Mapping, Optional

from work65.linking import linear
from work65.linking.config import Config, Words
from work65.linking.linear import Linear, read
from work65.problem import Problem


class Names(Dict[str, Linear]):
    """Names by which sums are computed. `placed` has those of areas and rows that are placed. Only
    the values of symbols may have exports that aren't numbers: `takes_places` says so."""

    def __init__(
        self, config: str, given: Mapping[str, int], symbols: Mapping[str, Words],
        exported: Callable[[str], Optional[int]],
    ) -> None:  # fmt: skip
        super().__init__()
        self.config, self.given, self.symbols, self.exported = config, given, symbols, exported
        self.placed: Dict[str, Linear] = {}
        self.open: List[str] = []
        self.takes_places = False

    def get(self, name: str, _: object = None) -> Optional[Linear]:  # type: ignore[override]
        """Returns the value of a name, None if it has none there."""
        if name in self.placed:
            return self.placed[name]
        try:
            number = self.given[name] if name in self.given else self.exported(name)
        except Problem:
            if not self.takes_places:
                raise
            return linear.name(name)
        if number is not None:
            return Linear(number)
        if name not in self.symbols or name in self.open:
            return None
        self.open.append(name)
        found, _why = read(self.symbols[name], self)
        self.open.remove(name)
        return found

    def sum(self, words: Words, line: int) -> Linear:
        """Returns the sum that words of the config make."""
        found, why = read(words, self)
        if found is None:
            raise Problem(f"{self.config}:{line}: {' '.join(it.text for it in words)}: {why}")
        return found


def names_in(config: Config) -> List[str]:
    """Returns the names in a config's sums, in order. Its linker imports them."""
    sums = [words for it in config.areas for words in (it.start, it.size, it.bank)]
    sums += [it.value for it in config.symbols]
    return list(dict.fromkeys(it.text for words in sums for it in words if it.kind == "word"))
