"""Tests in which memory, threads or streams fail, with the C code that makes them fail."""
