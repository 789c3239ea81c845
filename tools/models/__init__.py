"""Models, each written from the pages of `docs/` and apart from the crates. `tools/README.md` lists them."""
