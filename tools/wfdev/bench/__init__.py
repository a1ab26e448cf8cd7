"""The measurements: one module each, with a function `main` that returns the exit status."""
