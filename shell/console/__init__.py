"""The command at its terminal: colours, lines that fit, a pager, text that is safe to show, and how it ends."""
