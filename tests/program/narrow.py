"""narrow ROOM COMMAND ..: runs a command whose standard output is a pipe with so many bytes of room, where what doesn't fit is refused
and something smaller may still fit. Prints what fitted."""
import fcntl
import os
import subprocess
import sys

room = int(sys.argv[1])
ours, theirs = os.pipe()
size = fcntl.fcntl(theirs, 1031, 4096)  # F_SETPIPE_SZ: one page, the least there is
os.write(theirs, bytes(size - room))
os.set_blocking(theirs, False)
status = subprocess.run(sys.argv[2:], stdout=theirs).returncode
os.close(theirs)
sys.stdout.buffer.write(os.read(ours, size)[size - room:])
sys.stdout.flush()
sys.exit(status)
