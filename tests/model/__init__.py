"""The rules of documents 01 and 02, written a second time in Python from these alone, to compare the programs with."""
