"""What a plant watches, as a file for Prometheus."""
