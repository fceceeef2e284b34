"""Makes the files of each language, and the lines in others, from the tables in bindings/."""
