"""Another reckoning of everything that the crates compute, written from the definitions and apart from the code."""
