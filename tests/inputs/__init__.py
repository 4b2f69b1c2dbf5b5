"""Texts that more than one script tries."""
