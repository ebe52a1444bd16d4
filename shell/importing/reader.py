"""Takes the tokens of a statement one after another: words, lists in braces, addresses and ports."""
from __future__ import annotations

from typing import Callable, List, Optional, Sequence, TypeVar

from .grammar import End, Host, HostKind, Interface, Match, Operation, Option, Source
from .tokens import Kind, NotRead, Token

_END = Token(Kind.LINE_END, "\n")
_COMPARISONS = ("=", "!=", "<", "<=", ">", ">=")
_RANGES = ("><", "<>")
MOST_IN_ONE_ANOTHER = 32
_HOSTS = {"any": HostKind.ANY, "no-route": HostKind.NO_ROUTE, "urpf-failed": HostKind.URPF_FAILED}
FAMILIES = {"inet": 4, "inet6": 6}

Item = TypeVar("Item")


class Reader:
    """What is left of a statement, which stands in so many anchors of a file."""

    def __init__(self, tokens: Sequence[Token], source: Source, depth: int):
        self.source, self.depth = source, depth
        self._tokens, self._at, self._depth = tokens, 0, 0

    @property
    def next(self) -> Token:
        return self._tokens[self._at] if self._at < len(self._tokens) else _END

    @property
    def is_done(self) -> bool:
        return self._at >= len(self._tokens)

    def take(self) -> Token:
        token = self.next
        self._at += 1
        return token

    def is_next(self, *texts: str) -> bool:
        """Whether one of these words or marks follows; what is in quotes is neither."""
        return self.next.kind in (Kind.WORD, Kind.MARK) and self.next.text in texts

    def accept(self, text: str) -> bool:
        """Takes a word or a mark if it follows; returns whether it did."""
        found = self.is_next(text)
        self._at += found
        return found

    def one_of(self, *texts: str) -> str:
        """Takes one of these if it follows; empty if none does."""
        return self.take().text if self.is_next(*texts) else ""

    def expect(self, text: str) -> None:
        if not self.accept(text):
            raise NotRead(f"expected `{text}`, found {self.next}")

    def word(self, what: str) -> str:
        """Takes a word, in quotes or not."""
        if self.next.kind not in (Kind.WORD, Kind.QUOTED):
            raise NotRead(f"expected {what}, found {self.next}")
        return self.take().text

    def finish(self) -> None:
        if not self.is_done:
            raise NotRead(f"{self.next} is not understood here")

    # ---- lists

    def several(self, item: Callable[[], Item]) -> List[Item]:
        """One item, or a list of items in braces, which may be nested."""
        if not self.accept("{"):
            return [item()]
        self._depth += 1
        if self._depth > MOST_IN_ONE_ANOTHER:
            raise NotRead(f"lists are nested more than {MOST_IN_ONE_ANOTHER} deep")
        found = self.until("}", lambda: self.several(item))
        self._depth -= 1
        if not found:
            raise NotRead("a list has nothing in its braces")
        return [it for part in found for it in part]

    def until(self, mark: str, item: Callable[[], Item]) -> List[Item]:
        """Items up to a mark, with or without commas between them."""
        found: List[Item] = []
        self._pass_over()
        while not self.accept(mark):
            found.append(item())
            self._pass_over()
        return found

    def _pass_over(self) -> None:
        while not self.is_done and (self.next.kind is Kind.LINE_END or self.is_next(",")):
            self._at += 1

    # ---- parts of rules

    def match(self) -> Match:
        """Interfaces, family, protocols, source and destination; whatever is left out is for all."""
        match = Match(interfaces=self.interfaces())
        self.rest_of(match)
        return match

    def rest_of(self, match: Match) -> None:
        """What follows the interfaces of a rule."""
        match.family = FAMILIES.get(self.one_of(*FAMILIES), 0)
        match.protocols = self.several(lambda: self.word("a protocol")) if self.accept("proto") else []
        if self.accept("all"):
            return
        match.source = self.end() if self.accept("from") else match.source
        match.systems = self.several(lambda: self.word("an operating system")) if self.accept("os") else []
        match.destination = self.end() if self.accept("to") else match.destination

    def interfaces(self) -> List[Interface]:
        return self.several(self.interface) if self.accept("on") else []

    def interface(self) -> Interface:
        is_not = self.accept("!")
        return Interface(self.word("an interface"), is_not)

    def end(self) -> End:
        """What follows `from` or `to`."""
        hosts = [] if self.is_next("port") else self.several(self.host)
        ports = self.several(self.port) if self.accept("port") else []
        return End(tuple(hosts), tuple(ports))

    def host(self) -> Host:
        """An address, a net, a range, a table or an interface."""
        is_not = self.accept("!")
        if self.is_next(*_HOSTS):
            return Host(_HOSTS[self.take().text], is_not=is_not)
        if self.accept("<"):
            name = self.word("the name of a table")
            self.expect(">")
            return Host(HostKind.TABLE, name, is_not=is_not)
        if self.accept("("):
            name = self.word("an interface")
            self.expect(")")
            return Host(HostKind.DYNAMIC, name, length=self._length(), is_not=is_not)
        if self.accept("route"):
            return Host(HostKind.ROUTE, self.word("a label of routes"), is_not=is_not)
        text = self.word("an address")
        if self.accept("-"):
            return Host(HostKind.RANGE, text, self.word("the last address of a range"), is_not=is_not)
        return Host(HostKind.ADDRESS, text, length=self._length(), is_not=is_not)

    def _length(self) -> Optional[str]:
        return self.word("the length of a net") if self.accept("/") else None

    def port(self) -> Operation:
        """A port, or a comparison with one or two ports."""
        operator = self.one_of(*_COMPARISONS)
        if operator:
            return Operation(operator, self.word("a port"))
        first = self.word("a port")
        operator = self.one_of(*_RANGES)
        if operator:
            return Operation(operator, first, self.word("the last port of a range"))
        if ":" not in first:
            return Operation("=", first)
        low, _, high = first.partition(":")
        if not low or not high:
            raise NotRead(f"`{first}` is not a range of ports: it needs both ends, LOW:HIGH")
        return Operation(":", low, high)

    def user(self) -> Operation:
        """A user or a group, or a comparison with one or two of them."""
        operator = self.one_of(*_COMPARISONS)
        first = self.word("a user or a group")
        between = "" if operator else self.one_of(*_RANGES)
        return Operation(between, first, self.word("a user or a group")) if between else Operation(operator or "=", first)

    def option(self) -> Option:
        """An option in parentheses, with the words up to a comma or the end."""
        word, values = self.word("an option"), []
        while not self.is_next(",", ")") and not self.is_done:
            values.append(self.take().text)
        return Option(word, tuple(values))
