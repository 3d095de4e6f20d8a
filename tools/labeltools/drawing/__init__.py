"""Labels on a page, and a page in each form."""
