"""The hub: it starts a station's program and carries whole frames between it, its TNCs and its consoles. Nothing of it is proved."""
