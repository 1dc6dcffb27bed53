"""Takes the strings of bundle texts to translators and back. docs/EXCHANGE.md describes the commands, formats and errors."""
