"""From rows of cells to lines."""
