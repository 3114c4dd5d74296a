"""What bench/run measures, a module each, and what these share."""
