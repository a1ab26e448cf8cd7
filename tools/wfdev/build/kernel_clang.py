"""Stands for the kit's clang while the proved library for a kernel module is compiled: `kernel_clang CLANG
WORD ..`.

It compiles a module of LLVM for the shape of wfdev.build.kernel, and passes every other call on.
"""
# ruff: noqa: PTH
from __future__ import annotations

import os
import pathlib
import subprocess
import sys

from . import kernel


def main(clang: str, words: list[str]) -> int:
    """Makes the call, and returns its status."""
    if "ir" not in words or "-c" not in words:
        return subprocess.run([clang, *words], check=False).returncode
    out = words[words.index("-o") + 1]
    module = words[words.index("ir") + 1]
    left_out = {"-c", "-o", module, out}
    kept = [word for word in words if word not in left_out and not word.startswith("-O")]
    text = pathlib.Path(out + ".ll")
    words = [*kept, module, "-O0", "-S", "-emit-llvm", "-o", str(text)]
    status = subprocess.run([clang, *words], check=False).returncode
    if status:
        return status
    text.write_text(kernel.shaped(text.read_text(encoding="utf-8")), encoding="utf-8")
    words = [*kept, str(text), "-c", kernel.LEVEL, *kernel.FLAGS, "-o", out]
    status = subprocess.run([clang, *words], check=False).returncode
    os.unlink(text)
    return status


if __name__ == "__main__":
    sys.exit(main(sys.argv[1], sys.argv[2:]))
