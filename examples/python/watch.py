"""Reads the falls and rises of the CEC line from standard input, as `hdminet run --edges` writes them, and prints what was
read, as `hdminet mon` does. docs/library.md has how to start it."""

import sys

import hdminet


def told(reading):
    if (frame := reading.frame()) is None:
        return "".join(str(bit) for bit in reading.bits) or "-"
    words = ("ok", "refused") if frame[0] % 16 == 15 else ("ack", "nack")
    return "%s %s" % (hdminet.frame_text(frame), words[not reading.acknowledged()])


def main():
    receiver = hdminet.Receiver()
    for line in sys.stdin:
        if not line.strip() or line.startswith("#"):
            continue
        time, level = line.split()
        if level == "end":
            readings = receiver.until(int(time)) + [running for running in [receiver.running(int(time))] if running]
        else:
            readings = receiver.edge(int(time), level == "0")
        for reading in readings:
            print(reading.begin, reading.at, reading.ending, told(reading))


main()
