"""The games of the program, and what all games have."""
