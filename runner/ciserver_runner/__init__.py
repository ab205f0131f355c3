"""A runner for ciserver: docs/HTTP.md, "Who writes a runner", says what it keeps to."""
