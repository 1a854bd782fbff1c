"""Races that people see: the parts of `tools/races`."""
