"""What `tools/pages` is made of: a reader of the repository, the tables and figures of its pages, and what pages are
held to."""
