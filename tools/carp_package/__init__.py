"""Makes a package of Debian of the built program, the tools, and what tells of them."""
