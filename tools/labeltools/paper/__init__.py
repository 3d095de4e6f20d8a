"""Sheets and rolls, their cells in dots, and pages in dots."""
