"""What goes with the devices: certificates, lists of lots, and a CA's folder."""
