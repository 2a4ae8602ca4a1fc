"""One line for many programs: a server that has the line and the proved queue, and its clients.

bindings/python/SERVER.md has the protocol.
"""
