"""Tests of checks/kernel: how much stack a function takes, and which instructions are refused."""
import unittest

from wfdev.build import kernel as shape
from wfdev.build.report import Failure
from wfdev.checks import kernel
from wfdev.checks.kernel import Code
from wfdev.harness.script import Difference

BODY = """   0:\tpush   %rbp
   1:\tpush   %rbx
   2:\tsub    $0xc00,%rsp
   9:\tsub    $0x28,%rsp
   d:\tcall   12 <wf_path_pull+0x12>
\t\t\te: R_X86_64_PLT32\t.text.wf_path::path::Path::call-0x4
  12:\tjmp    17 <wf_path_pull+0x17>
\t\t\t13: R_X86_64_PLT32\tmemcpy-0x4
"""


class Stack(unittest.TestCase):
    """The octets of stack that a call takes."""

    def test_a_frame_has_its_parts(self) -> None:
        code = kernel.code_of(BODY)
        self.assertEqual(code.frame, 8 + 16 + 0xC00 + 0x28)
        self.assertEqual(code.calls, {"wf_path::path::Path::call", "memcpy"})

    def test_the_deepest_call_counts(self) -> None:
        known = {"a": Code(100, frozenset({"b", "c", "memcpy"})), "b": Code(10, frozenset()), "c": Code(5, frozenset({"d"}))}
        known["d"] = Code(50, frozenset())
        self.assertEqual(kernel.depth("a", known), 155)

    def test_a_function_that_calls_itself_has_no_bound(self) -> None:
        known = {"a": Code(8, frozenset({"b"})), "b": Code(8, frozenset({"a"}))}
        with self.assertRaisesRegex(Difference, "a calls itself"):
            kernel.depth("a", known)


class Instructions(unittest.TestCase):
    """Instructions that a kernel module must not have."""

    def found(self, line: str) -> list[str]:
        """Returns why a line is refused."""
        return [what for what, form in kernel.FORBIDDEN.items() if form.search(f"   0:\t{line}\n")]

    def test_each_is_found(self) -> None:
        self.assertEqual(self.found("movups (%rsi),%xmm0"), ["floating point or vector registers"])
        self.assertEqual(self.found("fldt   0x8(%rsp)"), ["floating point or vector registers"])
        self.assertEqual(self.found("jmp    *0x0(,%rax,8)"), ["a jump or call through a register"])
        self.assertEqual(self.found("mov    %rax,-0x8(%rsp)"), ["the red zone"])
        self.assertEqual(self.found("sub    %rax,%rsp"), ["a frame of a size that is not constant"])

    def test_others_are_not(self) -> None:
        for line in ("mov    %rax,0x8(%rsp)", "lea    -0x10(%rsp),%rsp", "jmp    12 <a+0x12>", "mov    -0x8(%rbp),%rax"):
            self.assertEqual(self.found(line), [], line)


class Shape(unittest.TestCase):
    """The attributes of a module."""

    def test_they_are_added(self) -> None:
        module = 'attributes #0 = { nounwind "frame-pointer"="all" "target-cpu"="x86-64" }\nattributes #1 = { nounwind }\n'
        found = shape.shaped(module)
        self.assertIn('attributes #0 = { noredzone "no-jump-tables"="true" nounwind "frame-pointer"="none" "target-cpu"', found)
        self.assertIn("attributes #1 = { nounwind }", found)

    def test_a_module_of_another_form(self) -> None:
        self.assertRaises(Failure, shape.shaped, "attributes #0 = { nounwind }\n")


if __name__ == "__main__":
    unittest.main()
