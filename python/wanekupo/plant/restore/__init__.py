"""Restores of a store, by a backup and the journals of its stations."""
