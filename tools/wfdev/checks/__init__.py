"""The checks: one module each, with a function `main` that returns the exit status. checks/README.md describes them."""
