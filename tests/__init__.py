"""The tests that checks run: programs, tables of rows, and models."""
