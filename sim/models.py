"""The paths that a scenario can run over, by name; `NAME:SETTING=VALUE` runs one with another setting, and `airtime:device` with several."""
from __future__ import annotations

from collections.abc import Sequence
from dataclasses import dataclass, field

from .baselines.driver import Driver
from .baselines.fifo import Fifo
from .baselines.fq_codel import FqCodel
from .baselines.fq_mac import FqMac
from .baselines.one_list import OneList
from .fields import Fault, shown
from .scenario import MACHINE, MODEL_SETTINGS
from .settings import presets, settings

MODELS: dict[str, type[Driver]] = {"fifo": Fifo, "fq_codel": FqCodel, "fq_mac": FqMac, "one_list": OneList}
NAMES = (*MODELS, MACHINE)


@dataclass
class Choice:
    """A path to run over: its name, the name of a preset, and settings that replace both the preset's and the scenario's in this run."""

    name: str
    own: dict[str, int] = field(default_factory=dict)
    preset: str = ""

    @property
    def label(self) -> str:
        return " ".join([self.name, *filter(None, [self.preset]), *(f"{name}={value}" for name, value in self.own.items())])

    @property
    def settings(self) -> dict[str, int]:
        """All settings that replace the scenario's."""
        return {**presets().get(self.preset, {}), **self.own}

    @property
    def is_machine(self) -> bool:
        return self.name == MACHINE


def bounds() -> dict[str, tuple[int, int]]:
    """The settings that a choice may replace, with their ranges."""
    machine = {name: (one.least, one.greatest) for name, one in settings().items() if name != "stations"}
    return {**machine, **{name: (low, high) for name, (low, high, _) in MODEL_SETTINGS.items()}}


def choose(text: str) -> Choice:
    """The choice of a word of `--compare`."""
    name, *words = text.split(":")
    if name not in NAMES:
        raise Fault(f"unknown path {shown(name)}: expected one of {', '.join(NAMES)}")
    choice = Choice(name)
    if words and words[0] in presets():
        choice.preset = words.pop(0)
        if not choice.is_machine:
            raise Fault(f"{shown(text)}: {choice.preset} has settings of the machine: expected it after {MACHINE} alone")
    for word in words:
        key, value = setting_of(text, word)
        if key in choice.own:
            raise Fault(f"{shown(text)}: {key} is given twice")
        choice.own[key] = value
    return choice


def setting_of(text: str, word: str) -> tuple[str, int]:
    """The setting of a word in a choice, and its value."""
    key, _, value = word.partition("=")
    if key not in bounds():
        raise Fault(f"{shown(text)}: unknown setting {shown(key)}: expected one of {', '.join([*bounds(), *presets()])}")
    low, high = bounds()[key]
    if not (value.isascii() and value.isdecimal() and len(value) <= 10) or not low <= int(value) <= high:
        raise Fault(f"{key} = {shown(value)}: expected a whole number from {low} to {high}")
    return key, int(value)


def choose_all(words: Sequence[str], source: str) -> list[Choice]:
    """The choices of a comparison, each different. A message begins with the source of the words."""
    try:
        choices = [choose(word) for word in words]
    except Fault as fault:
        raise Fault(f"{source}: {fault}") from None
    if not choices:
        raise Fault(f"{source}: there is no path: expected some of {', '.join(NAMES)}")
    labels = [choice.label for choice in choices]
    for label in labels:
        if labels.count(label) > 1:
            raise Fault(f"{source}: {label} is given twice: expected each path once")
    return choices
