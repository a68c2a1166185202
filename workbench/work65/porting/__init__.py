"""Brings sources and scripts into the profile of bin65."""
