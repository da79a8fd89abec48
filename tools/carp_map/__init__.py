"""From a map to an instance, and from tours back to a map: the parts of `tools/streets` and `tools/routes`."""
