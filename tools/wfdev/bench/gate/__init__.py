"""Counts what the gate costs: processor seconds of each crate's proof, tests and must-fail edits, and of functions."""
