"""The tree that the self-ID packets of a bus reset tell, and the walk that finds the nodes of one tree in the next."""

from __future__ import annotations

from typing import Dict, List, NamedTuple, Optional

from .self_ids import Port, by_node, has_link, is_contender, ports, speed


class Alike(NamedTuple):
    """What of a node a bus reset does not change."""

    link: bool
    speed: int
    contender: bool
    ports: int


class Tree:
    """Of each node what stays with it, and its neighbours by port. `stands` is false if the packets tell no tree."""

    def __init__(self, self_ids: List[int]):
        nodes = by_node(self_ids)
        self.count = len(nodes)
        self.nodes: List[Alike] = []
        self.neighbours: List[Dict[int, int]] = [{} for _ in nodes]
        self._states = [ports(packets) for packets in nodes.values()]
        for packets, states in zip(nodes.values(), self._states):
            first = packets[0]
            there = sum(state != Port.ABSENT for state in states)
            self.nodes.append(Alike(has_link(first), speed(first), is_contender(first), there))
        self.stands = self._joins_all()

    def _joins_all(self) -> bool:
        """Each node has the branches of the latest nodes without a parent as its children: a node's number comes after
        those below it."""
        branches: List[int] = []
        for node, states in enumerate(self._states):
            child_ports = [port for port, state in enumerate(states) if state == Port.CHILD]
            first = len(branches) - len(child_ports)
            if first < 0:
                return False
            for port, child in zip(child_ports, branches[first:]):
                if not self._join(node, port, child):
                    return False
            branches[first:] = [node]
        return len(branches) == 1

    def _join(self, parent: int, port: int, child: int) -> bool:
        up = [number for number, state in enumerate(self._states[child]) if state == Port.PARENT]
        if len(up) != 1:
            return False
        self.neighbours[parent][port] = child
        self.neighbours[child][up[0]] = parent
        return True


def walk(old: Tree, new: Tree, start_in_old: int, start_in_new: int) -> Dict[int, int]:
    """Which node of the new tree each node of the old one is that a walk through both from these two meets. Nothing
    if two that meet are not alike."""
    if old.nodes[start_in_old] != new.nodes[start_in_new]:
        return {}
    met = {start_in_old: start_in_new}
    taken = {start_in_new}
    to_leave = [(start_in_old, start_in_new)]
    while to_leave:
        here, there = to_leave.pop()
        for port, neighbour in old.neighbours[here].items():
            other = new.neighbours[there].get(port)
            if other is None or neighbour in met:
                continue
            if other in taken or old.nodes[neighbour] != new.nodes[other]:
                return {}
            met[neighbour] = other
            taken.add(other)
            to_leave.append((neighbour, other))
    return met


def same_nodes(old: Tree, new: Tree, local_in_old: Optional[int], local_in_new: Optional[int]) -> Dict[int, int]:
    """The walk from the node that captures, if it is known; else of all walks the first that meets most nodes."""
    if not (old.stands and new.stands):
        return {}
    if local_in_old is not None and local_in_new is not None and local_in_old < old.count and local_in_new < new.count:
        return walk(old, new, local_in_old, local_in_new)
    best: Dict[int, int] = {}
    for start_in_old in range(old.count):
        for start_in_new in range(new.count):
            met = walk(old, new, start_in_old, start_in_new)
            if len(met) > len(best):
                best = met
            if len(best) == min(old.count, new.count):  # no walk meets more
                return best
    return best
