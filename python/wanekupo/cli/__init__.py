"""The command `wanekupo`: its table of commands."""
