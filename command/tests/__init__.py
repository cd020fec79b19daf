"""Tests of the night floor's command, run by the gate: python3 -m unittest discover -s command/tests -t ."""
