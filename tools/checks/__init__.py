"""What ./test runs: each module gives tests, in groups."""
