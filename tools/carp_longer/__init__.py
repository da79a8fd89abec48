"""What `tools/longer` does: the place of a certificate, the steps that better it, and the log of them."""
