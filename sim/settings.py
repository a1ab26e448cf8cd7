"""The machine's settings: their names, ranges and standard values. tools/tables writes settings.json from the table in wf_frame."""
from __future__ import annotations

import functools
import json
from dataclasses import dataclass
from pathlib import Path

SOURCE = Path(__file__).resolve().parent / "settings.json"


@dataclass(frozen=True)
class Setting:
    """One setting."""

    name: str
    least: int
    greatest: int
    standard: int
    device: int


def parse(source: str) -> dict[str, Setting]:
    """The settings of a list in JSON, by name."""
    found = [Setting(one["name"], one["least"], one["most"], one["standard"], one["device"]) for one in json.loads(source)]
    return {one.name: one for one in found}


@functools.cache
def settings() -> dict[str, Setting]:
    """All settings by name."""
    return parse(SOURCE.read_text(encoding="utf-8"))


@functools.cache
def presets() -> dict[str, dict[str, int]]:
    """Settings that belong together, by the name that `--compare airtime:NAME` gives them. docs/TRACE.md says what each is for."""
    return {"device": {one.name: one.device for one in settings().values() if one.device != one.standard}}
