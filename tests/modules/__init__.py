"""What the programs of tests/ share, and bench/ with them."""
