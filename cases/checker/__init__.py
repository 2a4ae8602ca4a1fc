"""Runs the built program on cases, and compares what it prints with what it has to print."""
