"""The structures and numbers of Linux's CEC interface, by the names of <linux/cec.h>."""

import dataclasses
import struct

# Errors of a call (errno.h).
EPERM, EAGAIN, EBUSY, ENODEV, EINVAL, ENOTTY, ENONET, ETIMEDOUT = 1, 11, 16, 19, 22, 25, 64, 110

# CEC_CAP_*: what an adapter can do.
CAP_LOG_ADDRS, CAP_TRANSMIT, CAP_PASSTHROUGH, CAP_RC = 1 << 1, 1 << 2, 1 << 3, 1 << 4
CAP_MONITOR_ALL, CAP_MONITOR_PIN, CAP_CONNECTOR_INFO = 1 << 5, 1 << 7, 1 << 8
CAPABILITIES = CAP_LOG_ADDRS | CAP_TRANSMIT | CAP_PASSTHROUGH | CAP_RC | CAP_MONITOR_ALL | CAP_MONITOR_PIN | CAP_CONNECTOR_INFO

# CEC_MODE_*: what the program behind a file handle sends and hears.
MODE_INITIATOR, MODE_EXCL_INITIATOR = 0x1, 0x2
MODE_FOLLOWER, MODE_EXCL_FOLLOWER, MODE_EXCL_FOLLOWER_PASSTHRU = 0x10, 0x20, 0x30
MODE_MONITOR_PIN, MODE_MONITOR, MODE_MONITOR_ALL = 0xD0, 0xE0, 0xF0
MODE_INITIATOR_MASK, MODE_FOLLOWER_MASK = 0x0F, 0xF0

# CEC_TX_STATUS_* and CEC_RX_STATUS_*: what became of a frame, and of the reply that is waited for.
TX_OK, TX_ARB_LOST, TX_NACK, TX_LOW_DRIVE, TX_ERROR, TX_MAX_RETRIES, TX_ABORTED = 1, 2, 4, 8, 16, 32, 64
RX_OK, RX_TIMEOUT, RX_FEATURE_ABORT, RX_ABORTED = 1, 2, 4, 8

# CEC_EVENT_* and their flags.
EVENT_STATE_CHANGE, EVENT_LOST_MSGS, EVENT_PIN_LOW, EVENT_PIN_HIGH = 1, 2, 3, 4
EVENT_INITIAL_STATE, EVENT_DROPPED = 1, 2

# CEC_LOG_ADDRS_FL_* and CEC_MSG_FL_*.
ALLOW_UNREGISTERED, CDC_ONLY, ALL_LOG_ADDRS_FLAGS = 1, 4, 7
REPLY_TO_FOLLOWERS, ALL_MSG_FLAGS = 1, 3

MAX_LOG_ADDRS = 4
INVALID_ADDRESS, UNREGISTERED, BROADCAST = 0xFF, 15, 15
INVALID_PHYSICAL = 0xFFFF
NO_VENDOR = 0xFFFFFFFF
VERSION_1_4, VERSION_2_0 = 5, 6

# Primary device types and types of logical addresses.
PRIMARY_PROCESSOR, PRIMARY_SWITCH = 7, 6
TYPE_TV, TYPE_RECORD, TYPE_PLAYBACK, TYPE_AUDIO, TYPE_SPECIFIC, TYPE_UNREGISTERED = 0, 1, 3, 4, 5, 6
# The addresses of each type, in the order in which they are polled. 12 and 13 are of CEC 2.0.
ADDRESSES_OF_TYPE: dict[int, list[int]] = {0: [0], 1: [1, 2, 9, 12, 13], 2: [3, 6, 7, 10, 12, 13], 3: [4, 8, 11, 12, 13], 4: [5], 5: [14, 12, 13], 6: []}

# Messages that the framework knows by their opcodes.
FEATURE_ABORT, ABORT = 0x00, 0xFF
GET_VERSION, VERSION, GIVE_FEATURES, REPORT_FEATURES = 0x9F, 0x9E, 0xA5, 0xA6
GIVE_PHYSICAL, REPORT_PHYSICAL, GIVE_VENDOR, DEVICE_VENDOR = 0x83, 0x84, 0x8C, 0x87
GIVE_OSD_NAME, SET_OSD_NAME, GIVE_POWER = 0x46, 0x47, 0x8F
PRESSED, RELEASED, RECORD_ON, INITIATE_ARC, REPORT_ARC_INITIATED, REPORT_ARC_TERMINATED, CDC = 0x44, 0x45, 0x09, 0xC0, 0xC1, 0xC2, 0xF8
# A CDC message begins with its header, its opcode, and the physical address of who sends it.
CDC_HEAD = 4
# Reasons of a Feature Abort.
UNRECOGNISED, REFUSED = 0, 4

# How each message comes: to one device, to all, in both ways, or to all since CEC 2.0; by its least length, the opcodes.
DIRECT, TO_ALL, BOTH, TO_ALL_SINCE_2_0 = "direct", "to all", "both", "to all since 2.0"
_LENGTHS = {
    TO_ALL: {2: [0x85, 0xF8], 4: [0x82, 0x81, 0x86, 0xA7], 5: [0x84, 0x32, 0x87], 6: [0x80, 0xA6, 0xA8]},
    BOTH: {2: [0x36, 0x8A, 0x8B], 3: [0x72], 5: [0xA0]},
    TO_ALL_SINCE_2_0: {3: [0x90]},
    DIRECT: {
        2: [0x04, 0x0D, 0x0B, 0x0F, 0x67, 0x9F, 0x83, 0x91, 0xA5, 0x06, 0x05, 0x8C, 0x89, 0x46, 0x47, 0x45, 0x8F, 0xFF, 0x71, 0x7D, 0xA3, 0xA4,
            0x70, 0xC0, 0xC1, 0xC2, 0xC3, 0xC4, 0xC5],
        3: [0x09, 0x0A, 0x43, 0x35, 0x9E, 0x42, 0x1B, 0x1A, 0x41, 0x08, 0x64, 0x8D, 0x8E, 0x44, 0x7A, 0x7E, 0x9A, 0x73],
        4: [0x9D, 0x00], 6: [0x92], 7: [0x07], 9: [0x93], 13: [0x33, 0xA1, 0x34, 0xA2], 16: [0x99, 0x97],
    },
}
LEAST_LENGTH = {code: (length, way) for way, lengths in _LENGTHS.items() for length, codes in lengths.items() for code in codes}
# Record On is as long as its source asks: a digital service, an analogue service, an external plug, an external address.
RECORD_ON_LENGTH = {2: 10, 3: 7, 4: 4, 5: 5}

_MSG = struct.Struct("=QQIIII16s7B1x")
_LOG_ADDRS = struct.Struct("=4sHBBII15s4s4s4s48s1x")
CAPS = struct.Struct("=32s32sIII")
EVENT = struct.Struct("=QII64s")
STATE_CHANGE = struct.Struct("=HHH")
CONNECTOR = struct.Struct("=III56x")

# The calls by the number in their ioctl, with the size of what each is given.
CALLS = {0: ("caps", 76), 1: ("get_physical", 2), 2: ("set_physical", 2), 3: ("get_log_addrs", 92), 4: ("set_log_addrs", 92), 5: ("transmit", 56),
         6: ("receive", 56), 7: ("dequeue_event", 80), 8: ("get_mode", 4), 9: ("set_mode", 4), 10: ("connector", 68)}


class Message:
    """struct cec_msg."""

    FIELDS = ("tx_ts", "rx_ts", "len", "timeout", "sequence", "flags", "msg", "reply", "rx_status", "tx_status", "arb_lost", "nack", "low_drive", "error")
    tx_ts: int
    rx_ts: int
    len: int
    timeout: int
    sequence: int
    flags: int
    msg: bytes
    reply: int
    rx_status: int
    tx_status: int
    arb_lost: int
    nack: int
    low_drive: int
    error: int

    def __init__(self, raw=bytes(_MSG.size)):
        for name, value in zip(self.FIELDS, _MSG.unpack(raw)):
            setattr(self, name, value)

    @classmethod
    def of(cls, frame):
        new = cls()
        new.len, new.msg = len(frame), bytes(frame)
        return new

    def raw(self):
        return _MSG.pack(*(getattr(self, name) for name in self.FIELDS))

    def copy(self):
        return Message(self.raw())

    @property
    def frame(self):
        return self.msg[:self.len]

    @property
    def initiator(self):
        return self.msg[0] >> 4

    @property
    def destination(self):
        return self.msg[0] & 15

    @property
    def is_broadcast(self):
        return self.destination == BROADCAST

    @property
    def opcode(self):
        return self.msg[1] if self.len > 1 else None


@dataclasses.dataclass
class LogAddrs:
    """struct cec_log_addrs."""

    addresses: list = dataclasses.field(default_factory=lambda: [INVALID_ADDRESS] * MAX_LOG_ADDRS)
    version: int = VERSION_2_0
    count: int = 0
    vendor: int = NO_VENDOR
    flags: int = 0
    name: bytes = bytes(15)
    primary: list = dataclasses.field(default_factory=lambda: [0] * MAX_LOG_ADDRS)
    types: list = dataclasses.field(default_factory=lambda: [0] * MAX_LOG_ADDRS)
    all_types: list = dataclasses.field(default_factory=lambda: [0] * MAX_LOG_ADDRS)
    features: list = dataclasses.field(default_factory=lambda: [bytes(12)] * MAX_LOG_ADDRS)

    @classmethod
    def of(cls, raw):
        addresses, _, version, count, vendor, flags, name, primary, types, all_types, features = _LOG_ADDRS.unpack(raw)
        parts = [features[at:at + 12] for at in range(0, 48, 12)]
        return cls(list(addresses), version, count, vendor, flags, name, list(primary), list(types), list(all_types), parts)

    def raw(self, addresses, mask):
        return _LOG_ADDRS.pack(bytes(addresses), mask, self.version, self.count, self.vendor, self.flags, self.name, bytes(self.primary),
                               bytes(self.types), bytes(self.all_types), b"".join(self.features))

    @property
    def is_cdc_only(self):
        return bool(self.flags & CDC_ONLY)


def is_well_formed(message, version):
    """Whether a message is as long as its opcode asks, and comes in a way in which it may (cec_validate_msg)."""
    known = LEAST_LENGTH.get(message.opcode)
    if known is None:
        return True
    least, way = known
    if message.opcode == RECORD_ON and message.len > 2:
        least = RECORD_ON_LENGTH.get(message.msg[2], least)
    if message.len < least:
        return False
    if message.is_broadcast:
        return way in (TO_ALL, BOTH) or way == TO_ALL_SINCE_2_0 and version >= VERSION_2_0
    return way != TO_ALL
