"""What the tests share: the program, the tables of outside values, stores of both kinds, and servers."""
