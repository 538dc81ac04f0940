"""Sessions as docs/SESSIONS.md defines them, worked out from the definitions, apart from the program, and drawn."""
