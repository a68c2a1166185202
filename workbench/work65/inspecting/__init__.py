"""Inspects linked programs: cycles, page crossings, references, and calls between banks."""
