"""From a file of a table to rows of cells: CSV, .xlsx, .ods."""
