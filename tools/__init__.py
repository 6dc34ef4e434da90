"""Tools of the repository: they compare its texts, and try its programs."""
