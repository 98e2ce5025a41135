"""A store on two machines: takeover, stepdown, and DRBD's question."""
