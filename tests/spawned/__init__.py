"""What tests/threads is made of: components, two machines, and what leads between them."""
