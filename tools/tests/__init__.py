"""Tests of the package, and of what the scripts compute.

    python3 -m unittest discover -s tools/tests -t .
"""
