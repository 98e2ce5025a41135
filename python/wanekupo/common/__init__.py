"""What all packages share: files and locks, texts, moments, errors and their sentences, the store's user."""
