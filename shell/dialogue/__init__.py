"""The dialogue with a person: its loop, its words, the key that completes them, and notes of what others do."""
