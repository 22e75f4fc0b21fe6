"""Self-ID packets (IEEE 1394-1995, 4.3.4.1; IEEE 1394a), each as its first quadlet, and those of a bus reset by
node."""

from __future__ import annotations

from enum import IntEnum
from typing import Dict, Iterable, List

# The self-ID packets of each node that is there.
ByNode = Dict[int, List[int]]

HIGHEST_NODE = 62
EXTENDED = 1 << 23  # a packet that goes on with the ports of a node
RESERVED_IN_EXTENDED = 0x000C0002
LAST_EXTENDED = 2  # the number of the last extended packet that a node can have
MORE = 1  # another packet of this node follows
FIRST_PORT_SHIFTS = (6, 4, 2)  # of the ports in a node's first packet
EXTENDED_PORT_SHIFTS = range(16, 0, -2)
GAP_COUNT = 0x003F0000
S400 = 2 << 14


class Port(IntEnum):
    """What a port is connected to."""

    ABSENT = 0
    OPEN = 1
    PARENT = 2
    CHILD = 3


def is_self_id(quadlet: int) -> bool:
    return quadlet >> 30 == 2


def node_of(self_id: int) -> int:
    return self_id >> 24 & 63


def is_extended(self_id: int) -> bool:
    return bool(self_id & EXTENDED)


def sequence(self_id: int) -> int:
    """The number of an extended packet among those of its node."""
    return self_id >> 20 & 7


def has_link(self_id: int) -> bool:
    return bool(self_id >> 22 & 1)


def is_contender(self_id: int) -> bool:
    return bool(self_id >> 11 & 1)


def is_initiator(self_id: int) -> bool:
    return bool(self_id >> 1 & 1)


def speed(self_id: int) -> int:
    return self_id >> 14 & 3


def goes_on(self_id: int) -> bool:
    """Whether another packet of its node follows it."""
    return bool(self_id & MORE)


def can_be_logged(self_id: int) -> bool:
    """A log holds each first packet, and extended ones with a number up to 2 and no reserved bit."""
    if not is_self_id(self_id) or node_of(self_id) > HIGHEST_NODE:
        return False
    return not is_extended(self_id) or (sequence(self_id) <= LAST_EXTENDED and not self_id & RESERVED_IN_EXTENDED)


def ports(packets: Iterable[int]) -> List[int]:
    """The ports of a node, by its packets."""
    return [
        self_id >> shift & 3
        for self_id in packets
        for shift in (EXTENDED_PORT_SHIFTS if is_extended(self_id) else FIRST_PORT_SHIFTS)
    ]


def by_node(self_ids: Iterable[int]) -> ByNode:
    """The packets of a bus reset, in the order in which they came. What comes after a step back in the numbers of nodes
    answers a ping and is not of the bus reset; an extended packet without the one before it is not taken."""
    nodes: ByNode = {}
    last = -1
    for self_id in self_ids:
        node = node_of(self_id)
        if not can_be_logged(self_id) or node < last or (node == last and not is_extended(self_id)):
            break
        last = node
        if not is_extended(self_id):
            nodes[node] = [self_id]
        elif node in nodes and goes_on(nodes[node][-1]) and sequence(self_id) == len(nodes[node]) - 1:
            nodes[node].append(self_id)
    return nodes


def is_complete(packets: List[int]) -> bool:
    """Whether a node's packets are there to the last."""
    return not goes_on(packets[-1])


def are_whole(nodes: ByNode) -> bool:
    """Whether nodes from 0 on are there without a gap, each to its last packet, and the last one has no parent."""
    return (
        bool(nodes)
        and list(nodes) == list(range(len(nodes)))
        and all(map(is_complete, nodes.values()))
        and Port.PARENT not in ports(nodes[len(nodes) - 1])
    )


def count(nodes: ByNode) -> int:
    return sum(map(len, nodes.values()))


def in_order(nodes: ByNode) -> List[int]:
    return [self_id for node in sorted(nodes) for self_id in nodes[node]]

