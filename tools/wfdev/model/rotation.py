"""The rotation that picks stations and queues: MACHINE.md, The pick."""
from collections.abc import Callable
from dataclasses import dataclass, field


@dataclass
class Rotation:
    """A new and an old list of keys, and the deficits of keys."""

    new: list[int] = field(default_factory=list)
    old: list[int] = field(default_factory=list)
    deficits: dict[int, int] = field(default_factory=dict)

    def lists(self, key: int) -> bool:
        """Returns whether a key is listed."""
        return key in self.new or key in self.old

    def keys(self) -> list[int]:
        """Returns the listed keys."""
        return self.new + self.old

    def add(self, key: int, *, old: bool = False) -> None:
        """Puts a key last on the new or the old list."""
        (self.old if old else self.new).append(key)

    def remove(self, key: int) -> None:
        """Takes a key off the lists, if it is listed."""
        for keys in (self.new, self.old):
            if key in keys:
                keys.remove(key)

    def pick(
        self, quantum: Callable[[int], int], is_ready: Callable[[int], bool], pending: Callable[[int], int] = lambda _: 0
    ) -> int | None:
        """Returns the winner, which keeps its place, or None if both lists are empty. Each pending airtime is taken off a deficit."""
        while self.new or self.old:
            visited = self.new or self.old
            key = visited[0]
            if self.deficits[key] - pending(key) <= 0:
                self.deficits[key] += quantum(key)
                self.old.append(visited.pop(0))
            elif is_ready(key):
                return key
            elif visited is self.new:
                self.old.append(self.new.pop(0))
            else:
                self.old.pop(0)
        return None
