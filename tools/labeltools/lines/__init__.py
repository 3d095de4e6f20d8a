"""The file between label-table and label-print, and the symbols of its lines."""
