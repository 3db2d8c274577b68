"""wdq-mirror: keeps a store of Wikidata's triples in step with Wikidata's edits, by the program wdq."""

__version__ = "0.31.0"
