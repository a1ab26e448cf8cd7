"""The Python files of the repository, and the functions in them that lack a type annotation."""
import ast
from collections.abc import Iterable, Iterator
from pathlib import Path

from wfdev.repo import paths

FOLDERS = ("bench", "checks", "python", "sim", "tools")
FIRST_LINE = "#!/usr/bin/env python3"
Definition = ast.FunctionDef | ast.AsyncFunctionDef


def is_python(path: Path) -> bool:
    """Returns whether a file is a module or a script of Python."""
    if path.suffix == ".py":
        return True
    if path.suffix or not path.is_file():
        return False
    with open(path, "rb") as file:
        return file.readline().decode(errors="replace").strip() == FIRST_LINE


def files(top: Path = paths.TOP, folders: Iterable[str] = FOLDERS) -> Iterator[Path]:
    """Yields the Python files of these folders."""
    for folder in folders:
        yield from (path for path in sorted((top / folder).rglob("*")) if "out" not in path.parts and is_python(path))


def is_annotated(definition: Definition) -> bool:
    """Returns whether each parameter of a function and its result have a type; `self` and `cls` need none."""
    given = definition.args
    named = [*given.posonlyargs, *given.args]
    if named and named[0].arg in ("self", "cls"):
        named = named[1:]
    others = [one for one in (given.vararg, given.kwarg) if one is not None]
    return definition.returns is not None and all(one.annotation is not None for one in [*named, *given.kwonlyargs, *others])


def unannotated(path: Path) -> Iterator[tuple[int, str]]:
    """Yields the line and the name of each function in a file that lacks a type."""
    for node in ast.walk(ast.parse(paths.read(path))):
        if isinstance(node, (ast.FunctionDef, ast.AsyncFunctionDef)) and not is_annotated(node):
            yield node.lineno, node.name


def unannotated_functions(top: Path = paths.TOP) -> Iterator[str]:
    """Functions of Python without a type for each parameter and for the result."""
    for path in files(top):
        yield from (f"{path.relative_to(top)}:{line}: {name}" for line, name in sorted(unannotated(path)))
