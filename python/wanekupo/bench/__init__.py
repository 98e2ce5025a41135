"""A bench: the sockets of one seat, each a chip's way from registered to shipped."""
