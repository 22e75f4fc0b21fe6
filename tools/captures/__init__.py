"""Captures of real FireWire buses: made into logs of `fire`, and logs made into captures.

The tools are the scripts beside this folder (from_nosy.py, from_trace.py, from_isodump.py, to_nosy.py, to_pcap.py,
to_pcapng.py, to_isodump.py); docs/CAPTURES.md says how they are used. They need Python 3.8 or later and its library alone.
"""
