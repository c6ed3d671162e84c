"""Tests of the Python module, which ask the program (`.ci/python`)."""
