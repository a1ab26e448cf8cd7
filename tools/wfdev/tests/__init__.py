"""Tests of this package. checks/self-tests runs them."""
