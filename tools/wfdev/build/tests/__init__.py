"""Tests of the script ./wf and of its package."""
