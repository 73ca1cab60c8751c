"""What serve.py is made of: a run of the program, the sessions of its pages, connections, and the answers over HTTP."""
