"""What holds the pages to the programs."""
