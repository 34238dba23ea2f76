"""Tests of the program's edge, of the tools and of the documents for users. tools/test runs
them."""
