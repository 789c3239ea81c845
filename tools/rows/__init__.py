"""Rows with what is expected of them, and the scripts that make tables of these. `tools/README.md` lists them."""
