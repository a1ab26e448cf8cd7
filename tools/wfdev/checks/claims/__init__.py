"""Checks that every claim of docs/PROOFS.md has a place, and that every place cites what exists."""
