"""What manual pages and completions tell of the tools, made of their parsers."""
