"""The laboratory's language, in one place for all its readers: its words with their forms, numbers and answers as rows of tables, and
what is wrong with a line. The rows are those of docs/FORMATS.md, and a test compares the two."""
