"""Tests of the bench: `checks/sim`, or `python3 -m unittest discover -s sim` at the top of the repository."""
