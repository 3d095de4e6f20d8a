"""Texts, messages, files, and how a tool starts and ends: all others know it."""
