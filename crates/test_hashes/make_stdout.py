#!/usr/bin/env python3
"""Writes what the program must print: digests by Python's hashlib, which shares no code with it.

Usage: make_stdout.py > stdout"""
import hashlib

pattern = bytes(i % 251 for i in range(4096))
inputs = [b"abc", b""]
inputs += [pattern[:n] for n in list(range(261)) + [1000, 4096]]
for data in inputs:
    print(hashlib.blake2s(data, digest_size=32).hexdigest())
