"""Dumps of a server's Performance Schema, the script made from them, and the sums of both."""
