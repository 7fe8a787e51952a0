"""Programs that measure, each called at the top of the tree: python3 -S -m bench.NAME (README.md here)."""
