"""The program and the library as calls."""
