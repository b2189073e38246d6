"""Tables: any finite game, made of matrices, functions, games and files."""
