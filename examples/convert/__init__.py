"""Writes a GitLab CI file out into the profile that ciserver reads."""
