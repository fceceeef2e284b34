"""What the scripts of tests/, bench/ and bindings/tests share. Nothing that is installed needs it."""
