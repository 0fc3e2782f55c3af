#!/usr/bin/env python3
"""Plays what real clients send at a login, tests/clients, through `trials login`: each is given exactly the bytes and ends just so that
expected.txt says, into whatever pieces its bytes are cut.

Usage: clients.py TRIALS
"""
import pathlib
import sys

sys.path.insert(0, str(pathlib.Path(__file__).resolve().parents[1] / "lib"))
from expected import play

if __name__ == "__main__":
    play("clients")
