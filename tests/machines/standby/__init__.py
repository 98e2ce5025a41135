"""Two machines with one store, for `standby`: what they are made of, their disks, their cables, and who asks them."""
