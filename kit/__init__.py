"""A kit that tests a station: its proxy, its server, its chip, and what is looked at. README.md has the contract."""
