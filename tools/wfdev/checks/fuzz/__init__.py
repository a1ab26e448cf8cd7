"""Draws traces, scripts and captures, and compares what the program writes for them with models."""
