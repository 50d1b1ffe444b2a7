"""From gcc's three-address code of C programs to programs of tacflow's language. Not verified."""
