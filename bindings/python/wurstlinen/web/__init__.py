"""A page for browsers and phones, by which people set a rig up: bindings/python/WEB.md says how, and what is safe."""
