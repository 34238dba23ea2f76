"""The fuzzer: random scripts, damage and stops, beside a model and a reader that share nothing with
the program."""
