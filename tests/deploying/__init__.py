"""The files of deploy/: what copies vehicles from one server to another, and the proxies before them."""
