"""Makes the pages and the schema of docs/reference from the definitions, the sources and the tests."""
