"""The specification's limits: the most sites, items, messages on a line, records of a history, operations of a commit; the longest line of a script."""
SITES, ITEMS, HELD, RECORDS, OPERATIONS = 8, 64, 16, 256, 8
LONGEST = 512
U32 = 2**32 - 1
