"""breaking COMMAND ..: runs a command whose standard input is ours, and then an error in place of the end."""
import os
import pty
import subprocess
import sys
import tty

ours, theirs = pty.openpty()
tty.setraw(theirs)
given = sys.stdin.buffer.read()
ran = subprocess.Popen(sys.argv[1:], stdin=ours)
while given:
    given = given[os.write(theirs, given):]
os.close(theirs)  # behind what was written, reading fails then
sys.exit(ran.wait())
