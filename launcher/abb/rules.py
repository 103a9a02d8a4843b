"""The files of rules: each adds its own to the tables of instructions, functions and predefined data."""
from . import clocks, errors, functions, interrupts, late, moves, searches, signal_rules, texts, together, triggers, waits, zones

FILES = (clocks, errors, functions, interrupts, late, moves, searches, signal_rules, texts, together, triggers, waits, zones)
