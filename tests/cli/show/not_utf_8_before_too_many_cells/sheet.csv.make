import sys
sys.stdout.buffer.write(b"\xff" + b"," * 16384)
