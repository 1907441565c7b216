"""The prompt over the debugger: its words, and a session on a scenario that can grow."""
