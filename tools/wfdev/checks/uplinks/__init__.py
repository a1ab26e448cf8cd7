"""Plays a generated script on `wf uplink`, and compares each answer with that of a model written independently of it."""
