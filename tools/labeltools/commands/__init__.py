"""The programs label-table and label-print."""
