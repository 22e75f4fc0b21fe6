"""Bus resets of which self-ID packets are missing: what can be said of them all the same."""

from __future__ import annotations

from typing import List, Optional, Tuple

from .self_ids import (
    EXTENDED,
    FIRST_PORT_SHIFTS,
    EXTENDED_PORT_SHIFTS,
    GAP_COUNT,
    HIGHEST_NODE,
    MORE,
    S400,
    ByNode,
    Port,
    are_whole,
    in_order,
    is_extended,
    ports,
)
from .tree import Tree

INITIATOR = 2
AS_BEFORE = "self-ID packets missing: as at the bus reset before"
MADE = "one node's self-ID packet missing: made of the others"
MOST_PORTS = 27  # a first packet has three, and each of three extended ones eight


def mended(nodes: ByNode, before: ByNode) -> Optional[Tuple[ByNode, str]]:
    """All nodes of a bus reset of which these are there, each to its last packet, and what was done for it. `before`
    has those of the bus reset before, and is empty if there was none. None if nobody can say which node is which."""
    if nodes and all(is_alike(packets, before.get(node, [])) for node, packets in nodes.items()):
        return {**before, **nodes}, AS_BEFORE
    made = with_missing_node(nodes)
    return None if made is None else (made, MADE)


def is_alike(packets: List[int], before: List[int]) -> bool:
    """Whether a node's packets say what they said before, but for what a bus reset may change."""
    return list(map(what_stays, packets)) == list(map(what_stays, before))


def what_stays(self_id: int) -> int:
    return self_id if is_extended(self_id) else self_id & ~(GAP_COUNT | INITIATOR)


def missing_node(nodes: ByNode) -> Optional[int]:
    """The one node that is missing below the highest that is there, or above it if that has a parent."""
    highest = max(nodes)
    missing = [node for node in range(highest) if node not in nodes]
    if Port.PARENT in ports(nodes[highest]):
        missing.append(highest + 1)
    return missing[0] if len(missing) == 1 and missing[0] <= HIGHEST_NODE else None


def with_missing_node(nodes: ByNode) -> Optional[ByNode]:
    """The nodes and the one that is missing, made as a repeater: no link, no contender, S400, and the ports that the
    tree wants. A sniffer whose PHY does not report its own self-ID packet is missing at each bus reset."""
    node = missing_node(nodes) if nodes else None
    if node is None:
        return None
    cables = len(nodes)  # of a tree with one node more
    children = cables - sum(ports(packets).count(Port.CHILD) for packets in nodes.values())
    is_root = node > max(nodes)
    states = ([] if is_root else [Port.PARENT]) + [Port.CHILD] * children
    if children < 0 or len(states) > MOST_PORTS:
        return None
    gap_count = next(iter(nodes.values()))[0] & GAP_COUNT
    whole = dict(sorted({**nodes, node: repeater(node, gap_count, states)}.items()))
    return whole if are_whole(whole) and Tree(in_order(whole)).stands else None


def repeater(node: int, gap_count: int, states: List[int]) -> List[int]:
    """The self-ID packets of a node without a link, of S400, with these ports, at most 27."""
    first = 2 << 30 | node << 24 | gap_count | S400
    packets = [with_ports(first, FIRST_PORT_SHIFTS, states)]
    rest = states[len(FIRST_PORT_SHIFTS) :]
    for number in range(-(-len(rest) // len(EXTENDED_PORT_SHIFTS))):
        packets[-1] |= MORE
        head = 2 << 30 | node << 24 | EXTENDED | number << 20
        packets.append(with_ports(head, EXTENDED_PORT_SHIFTS, rest[number * len(EXTENDED_PORT_SHIFTS) :]))
    return packets


def with_ports(self_id: int, shifts, states: List[int]) -> int:
    for shift, state in zip(shifts, states):
        self_id |= state << shift
    return self_id
