"""Of bindings/kinds.toml: what the crates of Rattle say of each kind of streams."""
