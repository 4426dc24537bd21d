"""What tries the built programs, the library for C, and the tools."""
