"""A line that OLA's daemon has, by its remote calls on the loopback interface (bindings/python/SERVER.md)."""
