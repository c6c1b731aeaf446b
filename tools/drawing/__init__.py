"""The picture of a replay, drawn from the trace of a network."""
