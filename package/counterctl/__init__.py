"""The tasks of counterctl, a file for each; `main` reads the words."""
