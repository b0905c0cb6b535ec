import sys; sys.stdout.buffer.write(b"1\n\xff\n")
