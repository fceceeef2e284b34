"""The Cargo.toml of programs that pages show."""

from __future__ import annotations

from .needs import TOP

MANIFEST = f"""[package]
name = "page"
version = "0.0.0"
edition = "2021"

[dependencies]
mdmp = {{ path = "{TOP / "bindings/rust"}" }}
"""
