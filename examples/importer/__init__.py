"""What examples/import is made of."""
