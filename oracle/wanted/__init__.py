"""The rows that `oracle/rows.py` writes, by what they are of."""
