"""How reference/wrong_definitions.py reads definitions (syntax) and makes wrong ones of them (changes)."""
