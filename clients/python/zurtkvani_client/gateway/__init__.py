"""The gateway: an HTTP server between collectors, dashboards and the stores. It isn't proved; what it stores and tells goes through the
program's `serve`, which is."""
