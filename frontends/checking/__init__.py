"""Remarks on C programs: what check-c does around the translation. Not verified."""
