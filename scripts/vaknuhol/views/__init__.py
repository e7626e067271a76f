"""What is shown of a record: counts of lines and functions, tables, pages, and files for other programs."""
