"""What holds the documents against the sources, a module for each document."""
