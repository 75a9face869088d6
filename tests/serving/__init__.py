"""What tests/clients and the benchmark use: the server's process, requests on the wire, a model of the rules."""
