"""The parts of tools/prove.

files      reading, writing and running
commands   what the command line asks for
selftest   the tool tried on a crate of its own
"""
