#!/usr/bin/env python3
"""Attacks a running `solve` from sockets that are none of its own, and says whether its answers stay right: a run hears
only what carries its key.

    python3 trials/try_strangers.py [--short] [--times N] [--limit SECONDS] [--length SECONDS] [--program PATH] [--problem FILE] [--only NAME] [--audit]

The ports of a run are in /proc/net/udp, which every process of the machine may read. To each of them each attack sends
its packets, well formed and with the names that sites of a run have, for a second from the run's begin, or until its
end: that a node asks for work and found the root without a cover (`steal and return`), that the search is over
(`over`), that the root is given up (`abort`), that sites have restarted with the greatest incarnation (`hello`,
`members`), one byte (`a byte now and then`), the same as fast as it goes (`flood of bytes`), and packets of random
bytes (`flood of noise`). Three more send what `steal and return` does: from 127.0.0.2, by the port of a site
(`from another host`), the same with the source 127.0.0.1, which any process may name (`forged source`), and before the
run has all its sockets, from ports that it binds a moment later (`before all are bound`): that one is in a network
namespace with eight ports, and left out where no such namespace can be had. The first and the last of these three were
of use only while runs compared addresses. One more sends all that an earlier run sent, with its codes (`replay`): it
listens on the loopback, so it is left out where that isn't allowed. Where no problem is named, it is one with a cover
that takes hundredths to tenths of a second to find, so that there is time for an attack.

A table tells, attack by attack, how many runs were right, without an answer, wrong, or given up, the least, the middle
and the greatest time in seconds, and how many packets strangers sent in all; the first line is of runs that nobody
attacks. With --audit each run is audited, and those whose audit is unclean are a column of their own: a program that
hears strangers is tried so.

It wants the program: (cd crates/solve_cli && rt run -- --version) builds it. The exit status is 0 where no run was
wrong or given up, 1 where one was, where an attack sent nothing, or where no run that nobody attacks was right, 2 for a
mistake on the command line or where there is no program.
"""
from __future__ import annotations

import argparse
import collections
import fcntl
import multiprocessing
import os
import random
import socket
import statistics
import struct
import subprocess
import sys
import tempfile
import threading
import time
from collections.abc import Iterator
from multiprocessing.synchronize import Event
from typing import Any, Callable, Iterable, Optional

from built import number_from_one, parser_of, SOLVE_CLI, want_program, path_of

# a node and an incarnation; a run of the program; what makes the packets of an attack
Site = tuple[int, int]
Run = subprocess.Popen[str]
Attack = Callable[[], Iterable[bytes]]
Send = Callable[[socket.socket, bytes, int], None]

NODES = 4
HERE, OTHER_HOST = "127.0.0.1", "127.0.0.2"
EARLY, REPLAY = "before all are bound", "replay"
# the control message by which a datagram names its source: an interface, a source and a destination
PKTINFO, IP_PKTINFO = struct.Struct("=I4s4s"), 8
ETHERNET_IP = 0x0800
# the ports of a namespace, and how many strangers there bind one after the other: a run needs the five that are left
FEW_PORTS, KNOCKERS = range(40000, 40008), 3
GREATEST = 2**32 - 1
HELLO, MEMBERS, STEAL, RETURN, ABORT, OVER = 1, 2, 3, 6, 9, 10


def packet(kind: int, sender: Site, receiver: Site, body: bytes = b"") -> bytes:
    """A packet of the run's form, from one site to another, each a node and an incarnation."""
    return struct.pack(">HBBBIBI", 0x434E, 1, kind, *sender, *receiver) + body


def planted() -> str:
    """The text of a problem: 55 triples that cover 165 items, among 505 random ones."""
    draw = random.Random(3)
    items = [f"i{number}" for number in range(165)]
    cover = draw.sample(items, len(items))
    triples = [cover[place:place + 3] for place in range(0, len(cover), 3)] + [draw.sample(items, 3) for _ in range(505)]
    draw.shuffle(triples)
    return "".join(" ".join(words) + "\n" for words in [items, *triples])


def nodes() -> range:
    return range(1, NODES + 1)


def steal_and_return() -> Iterator[bytes]:
    root = struct.pack(">IIB", 0, 1, 0)
    for node in nodes():
        yield packet(STEAL, (node, 1), (0, 1))
        yield packet(RETURN, (node, 1), (0, 1), root)


def over() -> list[bytes]:
    return [packet(OVER, (0, 1), (node, 1)) for node in nodes()]


def abort() -> list[bytes]:
    root = struct.pack(">II", 0, 1)
    return [packet(ABORT, (0, 1), (node, 1), root) for node in nodes()]


def hello() -> list[bytes]:
    return [packet(HELLO, (node, GREATEST), (0, 1)) for node in nodes()]


def members() -> list[bytes]:
    body = struct.pack(f">B{NODES}I", NODES, *[GREATEST] * NODES)
    return [packet(MEMBERS, (0, 1), (node, 1), body) for node in nodes()]


def noise() -> list[bytes]:
    return [random.randbytes(random.randrange(1, 200)) for _ in range(20)]


def forged_source(own: socket.socket, datagram: bytes, port: int) -> None:
    """Sends a datagram to a port of this host, with this host as its source."""
    info = PKTINFO.pack(0, socket.inet_aton(HERE), bytes(4))
    own.sendmsg([datagram], [(socket.IPPROTO_IP, IP_PKTINFO, info)], 0, (HERE, port))


def plain_source(own: socket.socket, datagram: bytes, port: int) -> None:
    own.sendto(datagram, (HERE, port))


# what is sent, and how long the sender waits between two rounds, in seconds; from which host, and how
ATTACKS: dict[str, tuple[Any, ...]] = {
    "steal and return": (steal_and_return, 0.001),
    "over": (over, 0.001),
    "abort": (abort, 0.001),
    "hello": (hello, 0.001),
    "members": (members, 0.001),
    "a byte now and then": (lambda: [b"x"], 0.03),
    "flood of bytes": (lambda: [b"x"], 0),
    "flood of noise": (noise, 0),
    "from another host": (steal_and_return, 0.001, OTHER_HOST),
    "forged source": (steal_and_return, 0.001, OTHER_HOST, forged_source),
}


def ports(pid: int) -> list[int]:
    """The ports of the UDP sockets of a process."""
    inodes = set()
    try:
        for descriptor in os.listdir(f"/proc/{pid}/fd"):
            target = os.readlink(f"/proc/{pid}/fd/{descriptor}")
            if target.startswith("socket:["):
                inodes.add(target[8:-1])
    except OSError:
        return []
    with open("/proc/net/udp") as table:
        rows = [line.split() for line in table][1:]
    return [int(row[1].split(":")[1], 16) for row in rows if row[9] in inodes]


def attack(sent: collections.Counter[str], run: Run, seconds: float, attack_of: Attack, pause: float, host: str = HERE, send: Send = plain_source) -> None:
    """Sends the attack's packets to all ports of the run, for so many seconds or until it ends, and counts them in
    `sent`; from another host by the port of one of its sites."""
    own = socket.socket(socket.AF_INET, socket.SOCK_DGRAM)
    targets: list[int] = []
    end = time.monotonic() + seconds
    while run.poll() is None and time.monotonic() < end:
        if len(targets) <= NODES:
            targets = ports(run.pid)
            if host != HERE and len(targets) <= NODES:
                continue
            if host != HERE:
                own.bind((host, targets[-1]))
        for datagram in attack_of():
            for port in targets:
                try:
                    send(own, datagram, port)
                    sent["packets"] += 1
                except OSError:
                    pass
        if pause and len(targets) > NODES:
            time.sleep(pause)
    own.close()


def overheard(given: argparse.Namespace) -> Optional[list[bytes]]:
    """What the sites of a run sent one another, as one hears it who listens on the loopback; None where that isn't
    allowed."""
    try:
        ear = socket.socket(socket.AF_PACKET, socket.SOCK_DGRAM, socket.htons(ETHERNET_IP))
    except PermissionError:
        return None
    with ear:
        ear.bind(("lo", 0))
        ear.settimeout(0.2)
        ear.setsockopt(socket.SOL_SOCKET, socket.SO_RCVBUF, 1 << 22)
        one_run(given, None, 1)
        datagrams = list[bytes]()
        try:
            while len(datagrams) < 10_000:
                frame = ear.recv(65_536)
                head = 4 * (frame[0] & 15)
                if frame[9] == socket.IPPROTO_UDP:
                    datagrams.append(frame[head + 8:])
        except TimeoutError:
            pass
    return datagrams


def knock(end: Event, sent: Any) -> None:
    """Binds one of the few ports after another, and sends from it to all others what a site of the run might: until the
    end is set."""
    datagrams, own_ports = list(steal_and_return())[:2], list(FEW_PORTS)
    while not end.is_set():
        random.shuffle(own_ports)
        for port in own_ports:
            with socket.socket(socket.AF_INET, socket.SOCK_DGRAM) as own:
                try:
                    own.bind((HERE, port))
                    for target in FEW_PORTS:
                        for datagram in datagrams:
                            own.sendto(datagram, (HERE, target))
                except OSError:
                    continue
                sent.value += len(FEW_PORTS) * len(datagrams)


def one_early_run(given: argparse.Namespace, seed: int) -> tuple[float, Optional[str], int]:
    """What `one_run` tells, of a run to which strangers send before it has all its sockets."""
    end, sent = multiprocessing.Event(), multiprocessing.Value("q", 0)  # type: Event, Any
    knockers = [multiprocessing.Process(target=knock, args=(end, sent)) for _ in range(KNOCKERS)]
    for knocker in knockers:
        knocker.start()
    time.sleep(0.1)
    told = one_run(given, None, seed)
    end.set()
    for knocker in knockers:
        knocker.join()
    return *told[:2], sent.value


def narrow() -> None:
    """Leaves the few ports to the network namespace that this process is in, and brings its loopback up."""
    with open("/proc/sys/net/ipv4/ip_local_port_range", "w") as ports_of_system:
        ports_of_system.write(f"{FEW_PORTS[0]} {FEW_PORTS[-1]}")
    with socket.socket(socket.AF_INET, socket.SOCK_DGRAM) as any_socket:
        get_flags, set_flags, is_up = 0x8913, 0x8914, 1
        flags = struct.unpack("16sh", fcntl.ioctl(any_socket, get_flags, struct.pack("16sh14x", b"lo", 0))[:18])[1]
        fcntl.ioctl(any_socket, set_flags, struct.pack("16sh14x", b"lo", flags | is_up))


def in_namespace(given: argparse.Namespace) -> bool:
    """Runs this script in a network namespace of its own for the early attack alone, and answers whether none of its
    runs was bad; so it does where there can be no namespace."""
    unshare = ["unshare", "--user", "--map-root-user", "--net"]
    try:
        possible = subprocess.run([*unshare, "true"], capture_output=True).returncode == 0
    except OSError:
        possible = False
    if not possible:
        print(f"{EARLY}: not tried, there can be no network namespace", flush=True)
        return True
    words = ["--inside", "--times", str(given.times), "--limit", str(given.limit), "--program", given.program, "--problem", given.problem]
    if given.audit:
        words.append("--audit")
    return subprocess.run([*unshare, sys.executable, os.path.abspath(__file__), *words]).returncode == 0


def one_run(given: argparse.Namespace, name: Optional[str], seed: int) -> tuple[float, Optional[str], int]:
    """The seconds that a run took, its output, which is none where it was given up, and how many packets strangers
    sent."""
    begun = time.monotonic()
    sent: collections.Counter[str] = collections.Counter()
    words = [given.program, "solve", given.problem, "--nodes", str(NODES), "--workers", "2", "--seed", str(seed)]
    if given.audit:
        words.append("--audit")
    run = subprocess.Popen(words, stdout=subprocess.PIPE, stderr=subprocess.DEVNULL, text=True)
    if name:
        threading.Thread(target=attack, args=(sent, run, given.length, *ATTACKS[name]), daemon=True).start()
    try:
        text: Optional[str] = run.communicate(timeout=given.limit)[0]
    except subprocess.TimeoutExpired:
        run.kill()
        run.communicate()
        text = None
    return time.monotonic() - begun, text, sent["packets"]


def judged(given: argparse.Namespace, text: Optional[str], answer_file: str) -> str:
    if text is None:
        return "given up"
    if given.audit:
        *lines, verdict = text.splitlines(keepends=True) or [""]
        if verdict.startswith("audit unclean"):
            return "unclean"
        text = "".join(lines)
    if text in ("no answer\n", ""):
        return "no answer"
    with open(answer_file, "w") as answer:
        answer.write(text)
    checked = subprocess.run([given.program, "check", given.problem, answer_file], capture_output=True, text=True)
    is_right = text.startswith("cover ") and checked.stdout == "right\n"
    return "right" if is_right else "wrong"


def columns(given: argparse.Namespace) -> list[str]:
    """What a run may come to."""
    return ["right", "no answer", "wrong", "given up"] + (["unclean"] if given.audit else [])


def row(given: argparse.Namespace, name: Optional[str], answer_file: str) -> bool:
    """Runs all times under one attack, prints its row, and answers whether none was wrong or given up, and some were as
    they had to be."""
    counts = dict.fromkeys(columns(given), 0)
    seconds, sent = list[float](), 0
    for seed in range(given.times):
        took, text, packets = one_early_run(given, seed) if name == EARLY else one_run(given, name, seed)
        counts[judged(given, text, answer_file)] += 1
        seconds.append(took)
        sent += packets
    times = f"{min(seconds):8.2f} {statistics.median(seconds):8.2f} {max(seconds):8.2f}"
    print(f"{name or 'nobody':<22}", *[f"{count:>10}" for count in counts.values()], times, f"{sent:>9}", flush=True)
    if name and not sent:
        print(f"{name}: no packet was sent", flush=True)
    return counts["wrong"] == counts["given up"] == 0 and (sent if name else counts["right"]) > 0


def trial(given: argparse.Namespace, name: Optional[str], answer_file: str) -> bool:
    """Whether the runs under this attack went as they had to; so they do where it can't be tried."""
    if name == EARLY:
        return in_namespace(given)
    if name == REPLAY:
        datagrams = overheard(given)
        if not datagrams:
            print(f"{REPLAY}: not tried, nobody may listen on the loopback", flush=True)
            return True
        ATTACKS[REPLAY] = (lambda: datagrams, 0.001)
    return row(given, name, answer_file)


def main() -> None:
    parser = parser_of(__doc__)
    parser.add_argument("--short", action="store_true", help="once")
    parser.add_argument("--times", type=number_from_one, help="how often each attack is tried (default 20; 1 with --short)")
    parser.add_argument("--limit", type=float, default=20, help="after how many seconds a run is given up (default 20)")
    parser.add_argument("--length", type=float, default=1, help="for how many seconds a run is attacked (default 1)")
    parser.add_argument("--program", type=path_of, default=SOLVE_CLI, help="the program, in place of the built one")
    parser.add_argument("--problem", help="a file with a cover (default: one of 165 items)")
    parser.add_argument("--only", choices=[*ATTACKS, REPLAY, EARLY], help="this attack alone")
    parser.add_argument("--inside", action="store_true", help=argparse.SUPPRESS)
    parser.add_argument("--audit", action="store_true", help="audit each run")
    given = parser.parse_args()
    given.times = given.times or (1 if given.short else 20)
    want_program(given.program)
    if given.inside:
        narrow()
        with tempfile.TemporaryDirectory() as folder:
            sys.exit(0 if row(given, EARLY, os.path.join(folder, "answer")) else 1)
    print(f"{'attack':<22}", *[f"{word:>10}" for word in columns(given)], "   least   middle greatest   packets", flush=True)
    names = [given.only] if given.only else [None, *ATTACKS, REPLAY, EARLY]
    with tempfile.TemporaryDirectory() as folder:
        if not given.problem:
            given.problem = os.path.join(folder, "planted.dlx")
            with open(given.problem, "w") as opened:
                opened.write(planted())
        answer = os.path.join(folder, "answer")
        good = [trial(given, name, answer) for name in names]
    sys.exit(0 if all(good) else 1)


if __name__ == "__main__":
    main()
