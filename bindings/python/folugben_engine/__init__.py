"""An engine of abstract state machines, and four machines.

python3 -m folugben_engine runs them.
"""
