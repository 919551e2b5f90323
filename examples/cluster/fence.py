#!/usr/bin/env python3
"""Asks the power switch at a socket to end a node, and ends with 0 when the switch has answered that nothing of it is left.
Use: fence.py SOCKET NODE"""
import socket
import sys

with socket.socket(socket.AF_UNIX) as switch:
    switch.connect(sys.argv[1])
    switch.sendall(sys.argv[2].encode() + b"\n")
    sys.exit(switch.recv(16) != b"off")
