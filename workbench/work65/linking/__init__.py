"""Links objects and libraries of cc65 with bin65, and compares with the image of cc65's linker."""
