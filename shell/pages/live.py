"""`page --serve`: a page that shows a pair as it goes on, to browsers on this machine."""
from __future__ import annotations

import contextlib
import signal
import socket
import threading
from itertools import dropwhile, takewhile
from typing import Callable, ContextManager, Iterator, Optional, Sequence, TextIO, Tuple, Union

from ..language.commands import CHANGING, OPEN
from ..language.lines import opens
from ..link.laboratory import Unknown
from ..link.mirror import Shared, joined as joined_to
from ..link.programs import Client
from ..model.setups import Setup
from .bridge import Bridge
from .door import HERE, Door, make_room
from .runs import Run, run_of
from .server import started
from .serving import Visit
from .session import branches_of

# Without a script: a pair whose nodes let everything pass, and make states for it.
OPENING = ("rule a pass any", "rule b pass any", OPEN.word)
STOPPED = "the page is no longer served: its bridge was stopped"
# A session of a server, and the run that its page shows.
Pair = Tuple[Union[Client, Shared], Run]
Served = ContextManager[Pair]
# How long the end waits for watchers to hear of it, in seconds.
GRACE = 2.0


def serve(program: str, port: int, pair: Served, out: TextIO) -> None:
    """Serves the page of a pair at a port until an interrupt, or until the pair's server ends: both are raised."""
    interrupt_at_ends()
    make_room()

    def announce(door: Door) -> None:
        """Prints the addresses, which those who join the same server need before it answers."""
        print(f"{door.address(door.tokens.step)} for those who step", file=out)
        print(f"{door.address(door.tokens.watch)} for those who only watch", file=out)
        print(f"from another machine: `{door.tunnel}` there, and then the same addresses", file=out, flush=True)

    with live(program, port, pair, announce) as door:
        watch(door.bridge)


def interrupt_at_ends() -> None:
    """Makes the signals that end a program interrupt it, so that all watchers hear of it. A signal that is ignored stays ignored."""
    for sign in (signal.SIGTERM, signal.SIGHUP):
        if signal.getsignal(sign) is signal.SIG_DFL:
            signal.signal(sign, signal.default_int_handler)


def watch(bridge: Bridge) -> None:
    """Watches what other sessions do until something ends it, and reports that to all watchers."""
    try:
        bridge.watch()
    except BaseException as why:
        bridge.end(STOPPED if isinstance(why, KeyboardInterrupt) else f"{why}")
        bridge.news.everybody_left(GRACE)
        raise


@contextlib.contextmanager
def live(program: str, port: int, pair: Served, announce: Callable[[Door], None] = lambda door: None) -> Iterator[Door]:
    """The page of a pair, at a port, which is announced before the pair is there."""
    with contextlib.ExitStack() as ends:
        with at_port(port):
            door = ends.enter_context(Door(port, Visit))
        threading.Thread(target=door.serve_forever, args=(0.1,), daemon=True).start()
        ends.callback(door.shutdown)
        announce(door)
        session, run = ends.enter_context(pair)
        bridge = Bridge(program, run, branches_of(session), door.tokens.watch)
        ends.callback(bridge.close)
        ends.callback(cut_off, session)
        bridge.begin()
        door.open(bridge)
        ends.callback(door.shutdown)
        yield door


@contextlib.contextmanager
def begun(program: str, script: Sequence[str], name: str) -> Iterator[Pair]:
    """A server for a script, after its lines, and the script as its page has it."""
    with contextlib.ExitStack() as ends:
        run = ends.enter_context(contextlib.closing(run_of(program, script, name)))
        setup = [*takewhile(lambda it: not opens(it), script)]
        server = ends.enter_context(contextlib.closing(started(program, setup)))
        session = joined_to(ends.enter_context(contextlib.closing(Client(server.port))), program, run.setup).session
        ends.enter_context(contextlib.closing(session))
        for line in dropwhile(lambda it: not opens(it), script):
            if line.split()[:1] and line.split()[0] in CHANGING:
                session.ask(line)
        yield session, run


def joined(program: str, port: int, setup: Optional[Setup], out: TextIO) -> Served:
    """A session of a server that is already running, which is connected at once."""
    with at_port(port):
        client = Client(port)
    return answered(program, client, setup, f"The server at port {port}", out)


@contextlib.contextmanager
def answered(program: str, client: Client, setup: Optional[Setup], title: str, out: TextIO) -> Iterator[Pair]:
    """A session that is connected, once its server answers."""
    with contextlib.ExitStack() as ends:
        ends.enter_context(contextlib.closing(client))
        print("connected; the server answers once all its sessions are", file=out, flush=True)
        client.wait()
        session, known, said = joined_to(client, program, setup)
        ends.enter_context(contextlib.closing(session))
        if said:
            print(said, file=out, flush=True)
        if known is None:
            raise Unknown("this server does not report its setup, which a page needs: --setup FILE, the file that it read")
        yield session, Run(title=title, intro=[], setup=known, records=[])


@contextlib.contextmanager
def at_port(port: int) -> Iterator[None]:
    """Adds the port to a fault of the network."""
    try:
        yield
    except OSError as error:
        raise OSError(error.errno, error.strerror, f"{HERE}:{port}") from error


def cut_off(session: Union[Client, Shared]) -> None:
    """Ends a session that may be waiting for a reply."""
    client = session.client if isinstance(session, Shared) else session
    assert isinstance(client, Client)
    with contextlib.suppress(OSError):
        client.connection.shutdown(socket.SHUT_RDWR)
