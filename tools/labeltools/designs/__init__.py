"""Designs of a user's own, as SVG."""
