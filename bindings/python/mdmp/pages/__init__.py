"""HTML pages of one dump and of many (docs/pages.md). `python -m mdmp page` and `python -m mdmp day` make them."""
