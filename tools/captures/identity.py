"""Which device is which node: nodes have other numbers after each bus reset, devices in a log keep theirs."""

from __future__ import annotations

from typing import Dict, List, Optional

from .happenings import BusReset
from .tree import Tree, same_nodes

MOST_DEVICES = 63


class DeviceNumbers:
    """Device numbers of the nodes of each bus reset in turn: by EUI-64s that were read, else by the walk from the bus
    reset before. New devices are counted up; after 62 one gets the lowest number that its bus reset does not have."""

    def __init__(self) -> None:
        self._tree: Optional[Tree] = None
        self._local: Optional[int] = None
        self._devices: List[int] = []
        self._device_of_eui: Dict[int, int] = {}
        self._eui_of_device: Dict[int, int] = {}
        self._fresh = 0

    def name(self, reset: BusReset, euis: Dict[int, int]) -> List[int]:
        """The device of each node. `euis` has the EUI-64s that nodes show between this bus reset and the next."""
        tree = Tree(reset.self_ids)
        named = self._by_eui(tree.count, euis)
        self._add_by_walk(named, self._reached(tree, reset.local), euis)
        for node in range(tree.count):
            if node not in named:
                named[node] = self._new_number(named)
            if node in euis:
                self._device_of_eui[euis[node]] = named[node]
                self._eui_of_device[named[node]] = euis[node]
        self._tree, self._local = tree, reset.local
        self._devices = [named[node] for node in range(tree.count)]
        return self._devices

    def _by_eui(self, count: int, euis: Dict[int, int]) -> Dict[int, int]:
        named: Dict[int, int] = {}
        for node, eui in sorted(euis.items()):
            device = self._device_of_eui.get(eui)
            if node < count and device is not None and device not in named.values():
                named[node] = device
        return named

    def _reached(self, tree: Tree, local: Optional[int]) -> Dict[int, int]:
        """The devices that the walk leads to, by their new nodes."""
        if self._tree is None:
            return {}
        pairs = same_nodes(self._tree, tree, self._local, local)
        return {new: self._devices[old] for old, new in pairs.items()}

    def _add_by_walk(self, named: Dict[int, int], reached: Dict[int, int], euis: Dict[int, int]) -> None:
        for node, device in sorted(reached.items()):
            if node in named or device in named.values():
                continue
            if node in euis and self._eui_of_device.get(device, euis[node]) != euis[node]:
                continue
            named[node] = device

    def _new_number(self, named: Dict[int, int]) -> int:
        if self._fresh < MOST_DEVICES:
            self._fresh += 1
            return self._fresh - 1
        return next(device for device in range(MOST_DEVICES) if device not in named.values())
