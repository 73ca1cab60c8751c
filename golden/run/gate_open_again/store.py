import sys

from golden_data import store_with_its_gate_open

sys.stdout.buffer.write(store_with_its_gate_open())
