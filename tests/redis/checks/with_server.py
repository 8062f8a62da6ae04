"""Runs a program with the port of a server behind it.

    with_server.py PROGRAM
"""
import subprocess
import sys

from servers import Server

sys.exit(subprocess.run([*sys.argv[1:], str(Server().port)], timeout=60).returncode)
