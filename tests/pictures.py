#!/usr/bin/env python3
"""The pictures of docs/pictures are as docs/pictures/draw.py draws them from the sources as they are.

usage: tests/pictures.py
"""
import os
import subprocess
import sys

TOP = os.path.dirname(os.path.dirname(os.path.abspath(__file__)))

if __name__ == "__main__":
    sys.exit(subprocess.call([sys.executable, "-B", f"{TOP}/docs/pictures/draw.py", "--check"]))
