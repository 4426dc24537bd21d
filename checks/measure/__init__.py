"""What measures the programs, and writes the tables of the pages."""
