"""Chips: their families and fuse maps as data, espefuse, and what a burn plan is made of."""
