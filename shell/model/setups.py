"""The setup of a pair: its limits, the rules of each node, and which rules are the kernel's."""
from __future__ import annotations

from dataclasses import dataclass, field
from typing import Dict, Iterator, List, NamedTuple, Optional, Sequence, Tuple

from ..language.commands import KERNEL, SET
from ..language.comments import origin
from ..language.lines import has_word
from ..language.names import NODES
from ..language.packets import Key, PacketEvent
from ..language.setups import AEND, ASTART, CLASSES, LIMITS, MAX, NAT, RDR, STATES, TIMEOUT, Limit, Option
from .kernels import PROFILE, Kernel

DEFAULT_SECONDS = {it.word: it.seconds for it in CLASSES}


class Ports(NamedTuple):
    """The ports from the first to the last."""

    first: int
    last: int

    @classmethod
    def read(cls, plain: str) -> "Ports":
        first, _, last = plain.partition(":")
        return cls(int(first), int(last or first))

    def has(self, port: int) -> bool:
        return self.first <= port <= self.last

    @property
    def is_one(self) -> bool:
        return self.first == self.last

    def __str__(self) -> str:
        return str(self.first) if self.is_one else f"{self.first}:{self.last}"


class Pool(NamedTuple):
    """An address, in the form of an end's, and the ports of which one is taken."""

    address: str
    ports: Ports

    @classmethod
    def read(cls, plain: str) -> "Pool":
        address, _, ports = plain.partition("]:" if plain.startswith("[") else ":")
        return cls(address + "]" * plain.startswith("["), Ports.read(ports))

    def __str__(self) -> str:
        return f"{self.address}:{self.ports}"

    @property
    def is_v6(self) -> bool:
        return self.address.startswith("[")

    @property
    def ends(self) -> Iterator[str]:
        """Its ends, from the first port to the last."""
        return (f"{self.address}:{port}" for port in range(self.ports.first, self.ports.last + 1))


class Keys(NamedTuple):
    """The wire key and the stack key of a state."""

    wire: Key
    stack: Key


def _translated(packet: PacketEvent, near: str) -> Key:
    """The flow of a packet with this near end. An ICMP echo has its identifier at both ends, and protocols other than TCP and UDP
    have port 0."""
    (address, _, port), far = near.rpartition(":"), packet.key.far
    if packet.protocol == "icmp":
        return Key(f"{far.rpartition(':')[0]}:{port}", near)
    return Key(far, near if packet.protocol in ("tcp", "udp") else f"{address}:0")


@dataclass(frozen=True)
class Rule:
    """A rule of a node: its words, and where it is from, if a comment above it says so."""

    words: Sequence[str]
    origin: str = ""

    @property
    def text(self) -> str:
        return " ".join(self.words)

    @property
    def described(self) -> str:
        """The rule and where it is from, as `pass in proto tcp tport 22; pf.conf:21 @7`."""
        return f"{self.text}; {self.origin}" if self.origin else self.text

    @property
    def action(self) -> str:
        return self.words[0]

    def has(self, option: Option) -> bool:
        return option.word in self.words

    def value(self, option: Option) -> str:
        """The word after an option that the rule has, in the form in which the program prints it."""
        return option.values[0].plain(self.words[self.words.index(option.word) + 1])

    def ports(self, option: Option) -> Optional[Ports]:
        """The ports of an option, if the rule has it."""
        return Ports.read(self.value(option)) if self.has(option) else None

    @property
    def pool(self) -> Optional[Pool]:
        """What the rule translates to, by one of the two options; no rule of a set has both."""
        option = RDR if self.has(RDR) else NAT
        return Pool.read(self.value(option)) if self.has(option) else None

    def keys(self, packet: PacketEvent) -> Iterator[Keys]:
        """The keys that a packet's new state can have under the rule, in the order in which they are tried."""
        flow, pool = packet.key, self.pool
        for near in pool.ends if pool else (flow.near,):
            translated = _translated(packet, near)
            yield Keys(flow, translated) if self.has(RDR) else Keys(translated, flow)

    @property
    def most_states(self) -> Optional[int]:
        return int(self.value(MAX)) if self.has(MAX) else None

    def seconds(self, timeout_class: str) -> Optional[int]:
        """The seconds that the rule sets for a class, if it does; those of a block rule have no effect."""
        for at, word in enumerate(self.words[:-2] if self.action == "pass" else ()):
            if word == TIMEOUT.word and self.words[at + 1] == timeout_class:
                return int(self.words[at + 2])
        return None


class Adaptive(NamedTuple):
    """The numbers of states between which timeouts shrink: the limits `astart` and `aend`, which are `adaptive.start` and
    `adaptive.end` of pf.conf(5)."""

    start: int
    end: int

    def shortens(self, states: int) -> bool:
        """Whether a node with this number of states has shorter timeouts."""
        return self.start < states and self.start < self.end

    def scale(self, states: int) -> Tuple[int, int]:
        """The fraction that scales the timeouts of a node with this number of states."""
        return (max(0, self.end - states), self.end - self.start) if self.shortens(states) else (1, 1)

    def scaled(self, seconds: int, states: int) -> int:
        """The seconds of a timeout on a node with this number of states."""
        part, whole = self.scale(states)
        return seconds * part // whole


@dataclass
class Setup:
    """The lines of a setup without `open`, and what they say. Its limits have `astart` and `aend` only if these are set, and its
    timeouts are those of the lines `set timeout`, by class."""

    lines: List[str] = field(default_factory=list)
    limits: Dict[Limit, int] = field(default_factory=lambda: {limit: limit.default for limit in LIMITS.values() if not limit.fifths})
    timeouts: Dict[str, int] = field(default_factory=dict)
    rules: Dict[str, List[Rule]] = field(default_factory=lambda: {node: [] for node in NODES})
    kernel: Kernel = PROFILE
    # Between which numbers of states timeouts shrink.
    adaptive: Adaptive = field(init=False)
    # Where the next rules are from, as the comment above them says.
    _origin: str = field(default="", init=False)

    def __post_init__(self) -> None:
        self._adapt()

    @classmethod
    def of(cls, lines: Sequence[str]) -> "Setup":
        """The setup of some lines, comments among them."""
        setup = cls()
        for line in lines:
            if has_word(line):
                setup.add(line)
            else:
                setup.pass_over(line)
        return setup

    def by(self, kernel: Kernel) -> "Setup":
        """The same setup by the rules of a kernel, without its comments."""
        return Setup.of([*([] if kernel.is_profile else [kernel.line]), *(line for line in self.lines if line.split()[0] != KERNEL.word)])

    def pass_over(self, line: str) -> None:
        """Takes a line that is not read: a comment may say where the rules below it are from."""
        self._origin = origin(line)

    def add(self, line: str) -> None:
        """Takes a line that the program has found right."""
        words = line.split()
        if words[:2] == [SET.word, TIMEOUT.word]:
            self.timeouts[words[2]] = int(words[3])
        elif words[0] == SET.word:
            self.limits[LIMITS[words[1]]] = int(words[2])
            self._adapt()
            self._origin = ""
        elif words[0] == KERNEL.word:
            self.kernel = self.kernel.with_words(words[1:])
            self._origin = ""
        else:
            self.rules[words[1]].append(Rule(tuple(words[2:]), self._origin))
        self.lines.append(line)

    def rule(self, node: str, number: Optional[int]) -> Optional[Rule]:
        """A node's rule by its number, counted from 0."""
        rules = self.rules[node]
        return rules[number] if number is not None and number < len(rules) else None

    def _adapt(self) -> None:
        self.adaptive = Adaptive(*(self.limits.get(it, self.limits[STATES] * it.fifths // 5) for it in (ASTART, AEND)))

    def seconds(self, node: str, number: Optional[int], timeout_class: str) -> int:
        """The timeout of a state's class under its rule, in seconds, if no number of states shortens it: what the rule says, else
        what a line `set timeout` says, else the default."""
        rule = self.rule(node, number)
        own = rule.seconds(timeout_class) if rule else None
        return self.timeouts.get(timeout_class, DEFAULT_SECONDS[timeout_class]) if own is None else own

    def said_by(self, node: str, number: Optional[int], timeout_class: str) -> str:
        """What sets the timeout of a state's class under its rule: the rule, or `set timeout`; nothing if it is the default."""
        rule = self.rule(node, number)
        if rule and rule.seconds(timeout_class) is not None:
            return f"rule {number} of {node}"
        return f"`{SET.word} {TIMEOUT.word}`" if timeout_class in self.timeouts else ""
