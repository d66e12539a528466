"""A real nginx on loopback with the configuration of examples/nginx.conf, and what is behind it."""
