"""Tests of the programs and commands."""
