"""Builders and readers of Universal 3D files for tests, apart from the proved code."""
