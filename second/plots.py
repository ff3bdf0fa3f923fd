"""The text program on standard input: python3 second/plots.py < FILE"""
import sys

import text

if __name__ == "__main__":
    sys.stdout.buffer.write(text.output(sys.stdin.buffer.read()))
