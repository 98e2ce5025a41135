"""A seat of a site: its requests, each done once, its state file, its journal, and the server's replies."""
