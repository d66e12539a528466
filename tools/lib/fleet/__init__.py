"""Many gates on loopback, and what is sent to all of them."""
