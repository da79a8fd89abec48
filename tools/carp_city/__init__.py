"""A city with more streets than one instance holds: the parts of `tools/city`."""
