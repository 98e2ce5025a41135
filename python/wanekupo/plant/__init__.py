"""The tools of who runs the server: tokens, growths of a site, backups, restores and restarts."""
