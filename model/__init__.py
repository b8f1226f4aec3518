"""A model of the line tool, by docs/RULES.md and docs/FORMATS.md."""
