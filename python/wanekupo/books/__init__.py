"""What a store's books, and the journals of its stations, say: seals, an audit, and the page of a shift."""
