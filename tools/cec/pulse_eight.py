"""A Pulse-Eight USB-CEC adapter at a pseudo-terminal, as libcec speaks with it.

A message is FF CODE BYTES FE; a byte of FD or more among the bytes is FD and the byte less 3. Each command is answered by ACCEPTED and its
code, or by a message of its own code where it asks for a value. A frame goes out byte by byte, the last with TRANSMIT_EOM; then comes
how it ended. A frame of another device comes byte by byte, with flags for its last one and for an acknowledge."""

import os
import pty
import struct
import tty

from linux_cec import INVALID_PHYSICAL, TX_NACK, TX_OK
from room import Seat

START, END, ESCAPE, SHIFT = 0xFF, 0xFE, 0xFD, 3
# Codes of messages, by the names of libcec's public header adapter/Pulse-Eight.
FRAME_START, FRAME_DATA, ACCEPTED, REJECTED, SET_ACK_MASK = 5, 6, 8, 9, 10
TRANSMIT, TRANSMIT_EOM, SUCCEEDED, FAILED_LINE, FAILED_ACK = 11, 12, 16, 17, 18
FRAME_EOM, FRAME_ACK = 0x80, 0x40
# What is asked for by a code: the firmware's version and date, and what its memory keeps.
FIRMWARE, BUILD_DATE, AUTO_ENABLED, DEVICE_TYPE, ADDRESS_MASK, PHYSICAL, VERSION, DEFAULT_ADDRESS, OSD_NAME, ADAPTER_TYPE, AUTO_POWER = 21, 23, 25, 27, 29, 31, 33, 35, 37, 40, 42
VALUES = {
    FIRMWARE: b"\x00\x0c", BUILD_DATE: struct.pack(">I", 1_623_000_000), AUTO_ENABLED: b"\x01", DEVICE_TYPE: b"\x04", ADDRESS_MASK: b"\x01\x10",
    PHYSICAL: b"\x10\x00", VERSION: b"\x04", DEFAULT_ADDRESS: b"\x05", OSD_NAME: b"CEC Adapter", ADAPTER_TYPE: b"\x01", AUTO_POWER: b"\x00",
}
MOST_BYTES, MOST_ADDRESSES = 16, 4


class PulseEight:
    """The adapter: its terminal, and its seat in the room."""

    def __init__(self, room, clock, name, drm=None):
        self.room, self.clock, self.drm = room, clock, drm
        self.seat = Seat(room, name)
        self.seat.on_sent, self.seat.on_frame, self.seat.on_place = self.sent, self.heard, self.placed
        self.master, slave = pty.openpty()
        tty.setraw(slave)
        # The other end stays open, so that the terminal is there between two programs.
        self.slave, self.terminal = slave, os.ttyname(slave)
        os.set_blocking(self.master, False)
        self.frame, self.unread, self.lost = b"", b"", 0
        # The addresses that it acknowledges: the firmware keeps them where it is plugged in elsewhere.
        self.held = []

    def put(self, code, data=b""):
        message = bytes([START, code])
        for byte in data:
            message += bytes([ESCAPE, byte - SHIFT]) if byte >= ESCAPE else bytes([byte])
        try:
            os.write(self.master, message + bytes([END]))
        except BlockingIOError:
            # Nobody reads the terminal, and it is full.
            self.lost += 1

    def read(self):
        """Takes what the program has written."""
        try:
            self.unread += os.read(self.master, 4096)
        except OSError:
            return
        while bytes([END]) in self.unread:
            coded, self.unread = self.unread.split(bytes([END]), 1)
            message = decoded(coded[coded.rfind(bytes([START])) + 1:])
            if message:
                self.take(message[0], message[1:])
        self.unread = self.unread[-4096:]

    def take(self, code, data):
        """A message of the program."""
        if code in VALUES:
            self.put(code, VALUES[code])
        elif code in (TRANSMIT, TRANSMIT_EOM):
            if len(self.frame) == MOST_BYTES or len(data) != 1:
                self.put(REJECTED, bytes([code]))
                return
            self.frame += data
            self.put(ACCEPTED, bytes([code]))
            if code == TRANSMIT_EOM:
                frame, self.frame = self.frame, b""
                self.clock.advance()
                self.seat.send(frame, 1, None)
        else:
            if code == SET_ACK_MASK:
                mask = int.from_bytes(data, "big")
                self.held = [address for address in range(15) if mask >> address & 1][:MOST_ADDRESSES]
                self.clock.advance()
                self.seat.hold(self.held)
            self.put(ACCEPTED, bytes([code]))

    def sent(self, _tag, status, _failed, _at):
        self.put(SUCCEEDED if status & TX_OK else FAILED_ACK if status & TX_NACK else FAILED_LINE)

    def heard(self, told):
        frame = bytes.fromhex(told["bytes"])
        acknowledged = FRAME_ACK if told["verdict"] in ("ack", "refused") else 0
        for at, byte in enumerate(frame):
            is_last = at == len(frame) - 1
            self.put((FRAME_DATA if at else FRAME_START) | acknowledged | (FRAME_EOM if is_last else 0), bytes([byte]))

    def placed(self, physical):
        """It is plugged in elsewhere: it holds what it held, and a folder like /sys/class/drm has the EDID of that port, as libcec reads it."""
        if physical != INVALID_PHYSICAL and self.held:
            self.seat.hold(self.held)
        if not self.drm:
            return
        edid = self.room.edids.get(self.room.parents.get(self.seat.name), b"") if physical != INVALID_PHYSICAL else b""
        connector, linked = os.path.join(self.drm, ".card0-HDMI-A-1"), os.path.join(self.drm, "card0-HDMI-A-1")
        os.makedirs(connector, exist_ok=True)
        if not os.path.lexists(linked):
            # As in sysfs: libcec looks at links alone.
            os.symlink(os.path.abspath(connector), linked)
        for name, data in (("status", b"connected\n" if edid else b"disconnected\n"), ("enabled", b"enabled\n"), ("edid", edid)):
            with open(os.path.join(connector, name), "wb") as file:
                file.write(data)

    def close(self):
        os.close(self.master)
        os.close(self.slave)


def decoded(coded):
    """The bytes of a message without its escapes."""
    message, is_escaped = bytearray(), False
    for byte in coded:
        if byte == ESCAPE and not is_escaped:
            is_escaped = True
        else:
            message.append((byte + SHIFT) & 0xFF if is_escaped else byte)
            is_escaped = False
    return bytes(message)
