"""Document 01 in exact fractions, with requests 1/14 and 3/14 to 7/14 of document 02. It knows nothing of the stored
files."""
