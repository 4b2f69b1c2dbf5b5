"""What slapkit must answer, written a second time in Python: readers of its inputs, and models of its tools."""
