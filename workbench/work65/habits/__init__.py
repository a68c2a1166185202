"""Habits of cc65's users that bin65 rejects: one table, and the finders of its entries in sources and scripts."""
