#!/usr/bin/env python3
"""feed.py HOW PROGRAM PIECE...: runs a program whose standard input gets the bytes of files.

pieces       a pipe that gets one piece after another
bytes        a pipe that gets one byte after another
nonblocking  a pipe that is not waited for; the first piece is there from the start, the next comes when the program has ended,
             or after ten seconds
interrupted  a socket; before the pieces come, a signal interrupts the program's read
"""
import fcntl, os, signal, socket, struct, subprocess, sys, time

PAUSE = 0.2


def main(how, program, paths):
    pieces = [open(path, 'rb').read() for path in paths]
    if how == 'interrupted':
        end, start = socket.socketpair()
        # Only with a time limit does Linux report a read of a stopped and continued program as interrupted.
        end.setsockopt(socket.SOL_SOCKET, socket.SO_RCVTIMEO, struct.pack('ll', 60, 0))
        end, start = end.detach(), start.detach()
    else:
        end, start = os.pipe()
    if how == 'nonblocking':
        fcntl.fcntl(end, fcntl.F_SETFL, fcntl.fcntl(end, fcntl.F_GETFL) | os.O_NONBLOCK)
        os.write(start, pieces.pop(0))
    if how == 'bytes':
        pieces = [bytes([byte]) for piece in pieces for byte in piece]
    signal.signal(signal.SIGPIPE, signal.SIG_IGN)
    child = subprocess.Popen([program], stdin=end)
    os.close(end)
    if how == 'interrupted':
        for stop in (signal.SIGSTOP, signal.SIGCONT):
            time.sleep(PAUSE)
            child.send_signal(stop)
    for piece in pieces:
        if how == 'nonblocking':
            try:
                child.wait(timeout=10)
            except subprocess.TimeoutExpired:
                pass
        elif how != 'bytes':
            time.sleep(PAUSE)
        try:
            os.write(start, piece)
        except BrokenPipeError:
            break
    os.close(start)
    return child.wait()


sys.exit(main(sys.argv[1], sys.argv[2], sys.argv[3:]))
