"""The tests of the package wfpath."""
