"""terminal COMMAND ..: runs a command whose standard output is a terminal, and prints what it wrote there, with ESC spelt out."""
import os
import pty
import subprocess
import sys

ours, theirs = pty.openpty()
ran = subprocess.Popen(sys.argv[1:], stdout=theirs)
os.close(theirs)
said = b""
while True:
    try:
        more = os.read(ours, 65536)
    except OSError:  # how Linux tells that the other side is closed
        break
    if not more:
        break
    said += more
sys.stdout.buffer.write(said.replace(b"\r\n", b"\n").replace(b"\x1b", b"ESC"))
sys.stdout.flush()
sys.exit(ran.wait())
