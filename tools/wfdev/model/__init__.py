"""A model of the whole machine, written from the pages in docs/ and RFC 8289, without a look at the crates.

Each module names the sections of the page that it follows: most follow docs/MACHINE.md; `settings`, `calls`,
`grammar`, `answers` and `text` follow docs/TRACE.md, and `agreement` docs/SESSION.md. `text.replay` answers a
trace as `wf replay` does.

A new setting is a field of `settings.Settings`. A new call is a method of `machine.Machine`, and a row of
`calls.FORMS` for each form of its line.
"""
