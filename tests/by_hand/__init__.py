"""Tests that take long or need a browser; no gate runs them."""
