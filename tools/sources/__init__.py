"""What the source of the crates says: their contracts and their definitions, and what differs in them between two checkouts."""
