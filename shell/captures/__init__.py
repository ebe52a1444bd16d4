"""Captures of pfsync(4) and of what pf saw: files of tcpdump(1) read and written, and what they say of a pair."""
