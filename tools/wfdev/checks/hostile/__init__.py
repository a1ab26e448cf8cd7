"""Runs the built program against a hostile outside: outputs and inputs that fail, signals, little memory and little stack."""
