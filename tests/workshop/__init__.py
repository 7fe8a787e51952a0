"""Tests of the workshop: its runs, its words, what it does with programs that misbehave, and its pages."""
