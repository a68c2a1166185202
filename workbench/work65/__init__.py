"""work65: what a programmer does around a build with bin65."""
