"""An adapter: what the kernel's CEC framework does with one device of a room, for the programs that have it open as /dev/cecN.

docs/real-programs.md says what the framework answers by itself. A call is a method that is given the bytes of its structure and
`reply(result, bytes)`, which it calls once, at once or later; a result below 0 is an error."""

import array
import collections
import socket
import struct

import linux_cec as cec
from linux_cec import LogAddrs, Message
from room import Seat

# How often a frame is sent in all: a poll of a device that has its addresses twice, all others four times.
ATTEMPTS, POLL_ATTEMPTS = 4, 2
# How often an address is polled while each attempt is broken.
CLAIM_ATTEMPTS = 6
# The most logical addresses that a seat holds.
MOST_ADDRESSES = 4
# How many frames wait to be sent, how many messages a handle keeps, and how many edges.
MOST_PENDING, MOST_MESSAGES, MOST_EDGES = 18, 54, 800
DEFAULT_REPLY_TIME = 1_000
CORE = (cec.GET_VERSION, cec.ABORT, cec.GIVE_OSD_NAME, cec.GIVE_VENDOR, cec.GIVE_FEATURES, cec.GIVE_PHYSICAL)
# What a follower hears of, and nobody refuses where none is there.
UNREFUSED = (cec.GIVE_POWER, cec.PRESSED, cec.RELEASED, cec.REPORT_PHYSICAL)


class Transfer:
    """A frame that is on its way, or whose reply is waited for. `done(transfer)` is called at its end; without it the handle gets the result."""

    def __init__(self, message, handle, done):
        self.message, self.handle, self.done, self.deadline = message, handle, done, None


class Handle:
    """What one open() of /dev/cecN has: its mode, its messages and its events. Its descriptor is one end of a connection: a byte waits
    there while a message does, and an urgent one while an event does, so that select, poll and epoll work as they do."""

    def __init__(self, adapter, link, process):
        self.adapter, self.link, self.process = adapter, link, process
        self.initiator, self.follower = cec.MODE_INITIATOR, 0
        self.messages: collections.deque[Message] = collections.deque()
        self.events: dict[int, tuple] = {}
        self.edges: collections.deque[tuple] = collections.deque()
        self.watchers = []
        with socket.create_server(("127.0.0.1", 0)) as listener:
            self.descriptor = socket.create_connection(listener.getsockname())
            self.other_end, _ = listener.accept()
        self.other_end.setsockopt(socket.IPPROTO_TCP, socket.TCP_NODELAY, 1)
        self.shown = (False, False)
        self.post_state(cec.EVENT_INITIAL_STATE)

    def state(self):
        """Which of reading, events and writing are ready: bits 1, 2 and 4."""
        return (1 if self.messages else 0) | (2 if self.events or self.edges else 0) | (4 if self.adapter.is_configured else 0)

    def show(self):
        """Makes the descriptor readable while a message waits, and urgent while an event does."""
        now = bool(self.messages), bool(self.events or self.edges)
        if now == self.shown:
            return
        for flags in (socket.MSG_OOB, 0):
            try:
                while self.descriptor.recv(64, flags | socket.MSG_DONTWAIT):
                    pass
            except OSError:
                pass
        try:
            if now[0]:
                self.other_end.send(b"m", socket.MSG_DONTWAIT)
            if now[1]:
                self.other_end.send(b"e", socket.MSG_OOB | socket.MSG_DONTWAIT)
        except OSError:
            pass
        self.shown = now

    def changed(self):
        for watcher in list(self.watchers):
            watcher()
        self.show()

    def post(self, kind, payload, flags=0):
        """An event. One of each kind waits; a newer one takes its place, and says so."""
        if kind in self.events:
            flags |= self.events[kind][1] | cec.EVENT_DROPPED
        self.events[kind] = (self.adapter.now_ns(), flags, payload)
        self.changed()

    def post_state(self, flags=0):
        self.post(cec.EVENT_STATE_CHANGE, cec.STATE_CHANGE.pack(self.adapter.physical, self.adapter.mask, 1), flags)

    def post_lost(self):
        before = self.events.get(cec.EVENT_LOST_MSGS)
        count = struct.unpack("=I", before[2])[0] if before else 0
        self.post(cec.EVENT_LOST_MSGS, struct.pack("=I", count + 1))

    def edge(self, at, level, flags=0):
        kind = cec.EVENT_PIN_HIGH if level else cec.EVENT_PIN_LOW
        if len(self.edges) < MOST_EDGES:
            self.edges.append((self.adapter.clock.nanoseconds(at), flags, kind))
        else:
            instant, old, last = self.edges[-1]
            self.edges[-1] = (instant, old | cec.EVENT_DROPPED, last)
        self.changed()

    def put(self, message):
        if len(self.messages) >= MOST_MESSAGES:
            self.messages.popleft()
            self.post_lost()
        self.messages.append(message.copy())
        self.changed()

    def take_event(self):
        """The event or edge that came first, as struct cec_event, or None."""
        kind = next(iter(self.events), None)
        if self.edges and (kind is None or self.edges[0][0] < self.events[kind][0]):
            instant, flags, kind = self.edges.popleft()
            return cec.EVENT.pack(instant, kind, flags, b"")
        if kind is None:
            return None
        instant, flags, payload = self.events.pop(kind)
        return cec.EVENT.pack(instant, kind, flags, payload)

    def rights(self):
        """The descriptor, as it is handed to the program."""
        return [(socket.SOL_SOCKET, socket.SCM_RIGHTS, array.array("i", [self.descriptor.fileno()]))]

    def close(self):
        self.descriptor.close()
        self.other_end.close()


class Adapter:
    """/dev/cecN: a seat of the room, its addresses, and the handles of the programs."""

    def __init__(self, room, clock, later, name, number):
        self.room, self.clock, self.later, self.number = room, clock, later, number
        self.seat = Seat(room, name)
        self.seat.on_sent, self.seat.on_frame, self.seat.on_place = self.sent, self.heard, self.placed
        self.physical, self.handles, self.log_addrs = cec.INVALID_PHYSICAL, [], LogAddrs()
        self.is_configured = self.is_configuring = False
        # Who follows alone, whether it gets the core messages too, and who sends alone.
        self.follower, self.passes_through, self.sole_initiator = None, False, None
        self.pending, self.awaiting, self.sequence = [], [], 0
        self.claim, self.claim_status, self.when_configured = None, 0, []

    def now_ns(self):
        return int(self.clock.now() * 1e9)

    @property
    def mask(self):
        return sum(1 << address for address in self.log_addrs.addresses if address != cec.INVALID_ADDRESS) if self.is_configured else 0

    def has(self, address):
        return address != cec.INVALID_ADDRESS and address in self.log_addrs.addresses

    def log_addrs_raw(self):
        addresses = self.log_addrs.addresses if self.is_configured else [cec.INVALID_ADDRESS] * cec.MAX_LOG_ADDRS
        return self.log_addrs.raw(addresses, self.mask)

    # Its place in the room, and its addresses.

    def placed(self, physical):
        """It is plugged in elsewhere: its addresses are given up, and claimed anew."""
        moved = self.physical not in (cec.INVALID_PHYSICAL, physical)
        self.physical = physical
        if moved:
            self.unconfigure()
        self.tell_state()
        if physical != cec.INVALID_PHYSICAL and self.log_addrs.count:
            self.begin_claim()

    def tell_state(self):
        for handle in self.handles:
            handle.post_state()

    def unconfigure(self):
        was_at_it = self.is_configured or self.is_configuring
        self.is_configured = self.is_configuring = False
        pending, awaiting, self.pending, self.awaiting, self.claim = self.pending, self.awaiting, [], [], None
        self.seat.queue.clear()
        for transfer in pending:
            transfer.message.tx_status |= cec.TX_MAX_RETRIES | cec.TX_ABORTED
            self.complete(transfer)
        for transfer in awaiting:
            transfer.message.rx_status = cec.RX_ABORTED
            self.complete(transfer)
        if was_at_it:
            self.seat.hold([])
            self.claim_over()
            self.tell_state()

    def begin_claim(self):
        self.is_configuring = True
        self.claim = self.claims()
        next(self.claim, None)

    def claim_over(self):
        waiting, self.when_configured = self.when_configured, []
        for done in waiting:
            done()

    def claims(self):
        """Claims addresses as the framework does: of each type the first address whose poll nobody acknowledges. It stops at each poll, until
        `poll_over` goes on."""
        given = self.log_addrs
        mine: list[int] = []
        if given.types[0] != cec.TYPE_UNREGISTERED:
            for place in range(given.count):
                kind = cec.TYPE_SPECIFIC if self.physical and given.types[place] == cec.TYPE_TV else given.types[place]
                last, given.addresses[place] = given.addresses[place], cec.INVALID_ADDRESS
                for address in self.candidates(kind, last, mine):
                    for _ in range(CLAIM_ATTEMPTS):
                        self.queue(Message.of([address << 4 | address]), None, self.poll_over)
                        yield
                        if self.claim_status & (cec.TX_OK | cec.TX_NACK):
                            break
                    if not self.claim_status & cec.TX_OK:
                        given.addresses[place] = address
                        mine.append(address)
                        self.seat.hold(mine)
                        break
        self.is_configuring = False
        if mine or given.flags & cec.ALLOW_UNREGISTERED or given.types[0] == cec.TYPE_UNREGISTERED:
            if not mine:
                given.addresses = [cec.UNREGISTERED] + [cec.INVALID_ADDRESS] * (cec.MAX_LOG_ADDRS - 1)
            self.is_configured = True
            self.tell_state()
            self.introduce()
        self.claim_over()

    def candidates(self, kind, last, mine):
        order = [address for address in cec.ADDRESSES_OF_TYPE[kind] if address not in (12, 13) or self.log_addrs.version >= cec.VERSION_2_0]
        if last in order:
            order = [last] + [address for address in order if address != last]
        return [address for address in order if address not in mine]

    def poll_over(self, transfer):
        self.claim_status = transfer.message.tx_status
        if self.claim:
            next(self.claim, None)

    def introduce(self):
        """Says to all what it is: its features (CEC 2.0), where it is plugged in, whose make it is."""
        given = self.log_addrs
        for place in range(given.count):
            address = given.addresses[place]
            if address == cec.INVALID_ADDRESS or given.is_cdc_only:
                continue
            head = address << 4 | cec.BROADCAST
            if address != cec.UNREGISTERED and given.version >= cec.VERSION_2_0:
                self.say(self.features(head, place))
            self.say(self.report_physical(head, given.primary[place]))
            if given.vendor != cec.NO_VENDOR:
                self.say(self.report_vendor(head))

    def features(self, head, place):
        """Report Features: the profiles of a remote control, and after them those of the device, each up to a byte that goes no further."""
        profile, ends = b"", 0
        for byte in self.log_addrs.features[place]:
            profile += bytes([byte])
            ends += not byte & 0x80
            if ends == 2:
                break
        every = 0
        for other in range(self.log_addrs.count):
            every |= self.log_addrs.all_types[other]
        return bytes([head, cec.REPORT_FEATURES, self.log_addrs.version, every]) + profile

    def report_physical(self, head, primary):
        return bytes([head, cec.REPORT_PHYSICAL, self.physical >> 8, self.physical & 255, primary])

    def report_vendor(self, head):
        return bytes([head, cec.DEVICE_VENDOR]) + self.log_addrs.vendor.to_bytes(3, "big")

    # Sending.

    def say(self, frame):
        self.queue(Message.of(frame), None, None)

    def queue(self, message, handle, done):
        self.sequence = self.sequence % 0xFFFFFFFF + 1
        message.sequence = self.sequence
        transfer = Transfer(message, handle, done)
        self.pending.append(transfer)
        self.seat.send(message.frame, POLL_ATTEMPTS if message.len == 1 and self.is_configured else ATTEMPTS, transfer)

    def sent(self, transfer, status, failed, at):
        """A frame is done with: it was taken, or its last attempt has failed."""
        if transfer not in self.pending:
            return
        self.pending.remove(transfer)
        message = transfer.message
        message.tx_ts = self.clock.nanoseconds(at)
        counts = [min(255, failed[why]) for why in (cec.TX_ARB_LOST, cec.TX_NACK, cec.TX_LOW_DRIVE, cec.TX_ERROR)]
        message.arb_lost, message.nack, message.low_drive, message.error = counts
        message.tx_status |= status | sum(why for why, count in failed.items() if count)
        if not status & cec.TX_OK:
            message.tx_status |= cec.TX_MAX_RETRIES
        self.to_monitors(message, True)
        if status & cec.TX_OK and self.is_configured and message.timeout:
            transfer.deadline = self.clock.now() + message.timeout / 1000
            self.awaiting.append(transfer)
        else:
            self.complete(transfer)

    def complete(self, transfer):
        if transfer.done:
            transfer.done(transfer)
        elif transfer.handle in self.handles:
            transfer.handle.put(transfer.message)

    def next_deadline(self):
        return min((transfer.deadline for transfer in self.awaiting), default=None)

    def end_late_replies(self):
        now = self.clock.now()
        for transfer in [transfer for transfer in self.awaiting if transfer.deadline <= now]:
            self.awaiting.remove(transfer)
            message = transfer.message
            message.rx_ts, message.rx_status, message.reply = self.now_ns(), cec.RX_TIMEOUT, 0
            self.complete(transfer)

    # Receiving.

    def heard(self, told):
        """A frame of another device was on the wire, to this one or not."""
        message = Message.of(bytes.fromhex(told["bytes"]))
        if message.initiator != cec.UNREGISTERED and self.is_configured and self.has(message.initiator):
            return
        message.rx_ts, message.rx_status = self.clock.nanoseconds(told["close"]), cec.RX_OK
        is_for_it = message.is_broadcast or self.is_configured and self.has(message.destination)
        is_valid = is_for_it and is_well_formed_for(message, self.log_addrs.version)
        is_reply = is_valid and message.opcode not in (None, cec.CDC) and self.take_reply(message)
        self.to_monitors(message, is_valid)
        if is_valid and message.len > 1 and self.mask:
            self.notify(message, is_reply)

    def take_reply(self, message):
        """Gives a reply to the transfer that waits for it, and returns whether a program waited."""
        is_abort = message.opcode == cec.FEATURE_ABORT
        asked = message.msg[2] if is_abort else message.opcode
        arc = (cec.REPORT_ARC_INITIATED, cec.REPORT_ARC_TERMINATED)
        for transfer in self.awaiting:
            question = transfer.message
            if not is_abort and question.opcode == cec.INITIATE_ARC and asked in arc and question.reply in arc:
                question.reply = asked
            if asked != (question.opcode if is_abort else question.reply) or message.initiator != question.destination and not question.is_broadcast:
                continue
            if is_abort:
                question.reply = 0
            question.msg, question.len, question.rx_ts = message.msg, message.len, message.rx_ts
            question.rx_status = message.rx_status | (cec.RX_FEATURE_ABORT if is_abort else 0)
            message.flags, message.sequence = question.flags, question.sequence
            self.awaiting.remove(transfer)
            self.complete(transfer)
            return transfer.handle is not None
        return False

    def to_monitors(self, message, is_valid):
        for handle in self.handles:
            if handle.follower >= (cec.MODE_MONITOR if is_valid else cec.MODE_MONITOR_ALL):
                handle.put(message)

    def notify(self, message, is_reply):
        """What the framework answers by itself, and which handles get the message."""
        if self.log_addrs.is_cdc_only and message.opcode != cec.CDC:
            return
        if message.initiator == cec.UNREGISTERED and not self.passes_through and message.opcode in (cec.GET_VERSION, cec.ABORT, cec.GIVE_POWER, cec.GIVE_OSD_NAME):
            return
        if message.opcode in CORE and not self.passes_through:
            if not message.is_broadcast:
                self.answer_core(message)
            return
        if message.opcode not in CORE and (message.opcode not in UNREFUSED or message.opcode == cec.GIVE_POWER and not self.passes_through):
            is_followed = self.follower or any(handle.follower == cec.MODE_FOLLOWER for handle in self.handles)
            if not message.is_broadcast and not is_reply and not is_followed and message.opcode != cec.FEATURE_ABORT:
                self.refuse(message, cec.UNRECOGNISED)
                return
        if is_reply and not message.flags & cec.REPLY_TO_FOLLOWERS:
            return
        for handle in [self.follower] if self.follower else [each for each in self.handles if each.follower == cec.MODE_FOLLOWER]:
            handle.put(message)

    def answer_core(self, message):
        """A core message to this device."""
        given = self.log_addrs
        place = given.addresses.index(message.destination) if message.destination in given.addresses else 0
        to_one, to_all = message.destination << 4 | message.initiator, message.destination << 4 | cec.BROADCAST
        name = given.name.split(b"\0")[0]
        if message.opcode == cec.GET_VERSION:
            self.say([to_one, cec.VERSION, given.version])
        elif message.opcode == cec.GIVE_PHYSICAL:
            self.say(self.report_physical(to_all, given.primary[place]))
        elif message.opcode == cec.GIVE_VENDOR and given.vendor != cec.NO_VENDOR:
            self.say(self.report_vendor(to_all))
        elif message.opcode == cec.GIVE_OSD_NAME and name:
            self.say(bytes([to_one, cec.SET_OSD_NAME]) + name)
        elif message.opcode == cec.GIVE_FEATURES and given.version >= cec.VERSION_2_0:
            self.say(self.features(to_all, place))
        elif message.opcode != cec.ABORT:
            self.refuse(message, cec.UNRECOGNISED)
        elif given.primary[place] != cec.PRIMARY_SWITCH:
            self.refuse(message, cec.REFUSED)

    def refuse(self, message, reason):
        if message.initiator != cec.UNREGISTERED:
            self.say([message.destination << 4 | message.initiator, cec.FEATURE_ABORT, message.opcode, reason])

    # The calls of a program.

    def call(self, handle, number, size, raw, nonblock, reply):
        name, wanted = cec.CALLS.get(number, ("", -1))
        if size != wanted:
            reply(-cec.ENOTTY)
        else:
            getattr(self, "call_" + name)(handle, raw, nonblock, reply)

    def is_busy(self, handle):
        """Whether another handle sends alone, or this one does not send at all."""
        if handle in (self.sole_initiator, self.follower):
            return False
        return self.sole_initiator is not None or handle.initiator == 0

    def call_caps(self, handle, raw, nonblock, reply):
        reply(0, cec.CAPS.pack(b"hdminet", b"hdminet-%d" % self.number, MOST_ADDRESSES, cec.CAPABILITIES, 0x060100))

    def call_get_physical(self, handle, raw, nonblock, reply):
        reply(0, struct.pack("=H", self.physical))

    def call_set_physical(self, handle, raw, nonblock, reply):
        # The physical address is that of the EDID.
        reply(-cec.ENOTTY)

    def call_get_log_addrs(self, handle, raw, nonblock, reply):
        reply(0, self.log_addrs_raw())

    def call_set_log_addrs(self, handle, raw, nonblock, reply):
        given = LogAddrs.of(raw)
        given.flags &= cec.ALL_LOG_ADDRS_FLAGS
        if self.is_configuring or given.count and self.is_configured or self.is_busy(handle):
            reply(-cec.EBUSY)
        elif not given.count:
            self.unconfigure()
            self.log_addrs = LogAddrs()
            reply(0, self.log_addrs_raw())
        elif not is_taken(given):
            reply(-cec.EINVAL)
        else:
            self.log_addrs = given
            if self.physical != cec.INVALID_PHYSICAL and not nonblock:
                self.when_configured.append(lambda: reply(0, self.log_addrs_raw()))
                self.begin_claim()
                return
            if self.physical != cec.INVALID_PHYSICAL:
                self.begin_claim()
            reply(0, self.log_addrs_raw())

    def call_transmit(self, handle, raw, nonblock, reply):
        message = Message(raw)
        error = self.transmit_error(handle, message)
        if error:
            reply(-error)
            return
        if message.len == 1 and self.is_configured and self.has(message.destination):
            # Nobody acknowledges a poll of its own address.
            self.sequence = self.sequence % 0xFFFFFFFF + 1
            message.sequence, message.tx_ts, message.tx_status, message.nack = self.sequence, self.now_ns(), cec.TX_NACK | cec.TX_MAX_RETRIES, 1
            reply(0, message.raw())
        elif nonblock:
            self.queue(message, handle, None)
            reply(0, message.raw())
        else:
            self.queue(message, handle, lambda transfer: reply(0, transfer.message.raw()))

    def transmit_error(self, handle, message):
        """The error of a frame that may not be sent, or None; the message is made ready."""
        if not self.log_addrs.count:
            return cec.EPERM
        if self.is_configuring:
            return cec.ENONET
        if self.is_busy(handle):
            return cec.EBUSY
        for field in ("rx_ts", "tx_ts", "rx_status", "tx_status", "arb_lost", "nack", "low_drive", "error", "sequence"):
            setattr(message, field, 0)
        message.flags &= cec.ALL_MSG_FLAGS
        if message.reply and not message.timeout:
            message.timeout = DEFAULT_REPLY_TIME
        if not message.timeout:
            message.flags &= ~cec.REPLY_TO_FOLLOWERS
        if not 1 <= message.len <= 16 or message.timeout and message.len == 1:
            return cec.EINVAL
        message.msg = message.frame.ljust(16, b"\0")
        if message.opcode == cec.CDC and message.len >= cec.CDC_HEAD:
            # The framework says which device of the tree a CDC message comes from.
            message.msg = message.msg[:2] + self.physical.to_bytes(2, "big") + message.msg[cec.CDC_HEAD:]
        is_to_itself = self.is_configured and not message.is_broadcast and self.has(message.destination)
        if message.len == 1 and message.is_broadcast or message.len > 1 and is_to_itself:
            return cec.EINVAL
        if self.is_configured and message.len > 1 and not self.has(message.initiator):
            return cec.EINVAL
        if not self.is_configured and message.msg[0] != 0xF0:
            return cec.ENONET
        if not self.is_configured and message.reply:
            return cec.EINVAL
        return cec.EBUSY if len(self.pending) >= MOST_PENDING else None

    def call_receive(self, handle, raw, nonblock, reply):
        timeout = Message(raw).timeout

        def take():
            if not handle.messages:
                return False
            message = handle.messages.popleft()
            message.timeout = message.flags = 0
            message.timeout = timeout
            reply(0, message.raw())
            handle.show()
            return True
        self.now_or_later(handle, take, nonblock, timeout / 1000 if timeout else None, reply)

    def call_dequeue_event(self, handle, raw, nonblock, reply):
        def take():
            event = handle.take_event()
            if event is None:
                return False
            reply(0, event)
            handle.show()
            return True
        self.now_or_later(handle, take, nonblock, None, reply)

    def now_or_later(self, handle, take, nonblock, seconds, reply):
        """Replies at once where `take` can; else, but for a handle that does not block, as soon as it can, at most so much later."""
        if take():
            return
        if nonblock:
            reply(-cec.EAGAIN)
            return

        def watcher():
            if watcher in handle.watchers and (reply.is_gone() or take()):
                handle.watchers.remove(watcher)

        def late():
            if watcher in handle.watchers:
                handle.watchers.remove(watcher)
                reply(-cec.ETIMEDOUT)
        handle.watchers.append(watcher)
        if seconds:
            self.later(seconds, late)

    def call_get_mode(self, handle, raw, nonblock, reply):
        reply(0, struct.pack("=I", handle.initiator | handle.follower))

    def call_set_mode(self, handle, raw, nonblock, reply):
        mode = struct.unpack("=I", raw)[0]
        initiator, follower = mode & cec.MODE_INITIATOR_MASK, mode & cec.MODE_FOLLOWER_MASK
        follows_alone = follower in (cec.MODE_EXCL_FOLLOWER, cec.MODE_EXCL_FOLLOWER_PASSTHRU)
        if mode & ~0xFF or initiator > cec.MODE_EXCL_INITIATOR or cec.MODE_EXCL_FOLLOWER_PASSTHRU < follower < cec.MODE_MONITOR_PIN:
            return reply(-cec.EINVAL)
        if not initiator and cec.MODE_FOLLOWER <= follower <= cec.MODE_EXCL_FOLLOWER_PASSTHRU or initiator and follower >= cec.MODE_MONITOR_PIN:
            return reply(-cec.EINVAL)
        if follows_alone and self.follower not in (None, handle):
            return reply(-cec.EBUSY)
        if initiator == cec.MODE_EXCL_INITIATOR and self.sole_initiator not in (None, handle):
            return reply(-cec.EBUSY)
        self.forget_mode(handle)
        if follows_alone:
            self.follower, self.passes_through = handle, follower == cec.MODE_EXCL_FOLLOWER_PASSTHRU
        if initiator == cec.MODE_EXCL_INITIATOR:
            self.sole_initiator = handle
        if (follower == cec.MODE_MONITOR_PIN) != (handle.follower == cec.MODE_MONITOR_PIN):
            self.watch_pin(handle, follower == cec.MODE_MONITOR_PIN)
        handle.initiator, handle.follower = initiator, follower
        return reply(0)

    def forget_mode(self, handle):
        if self.follower is handle:
            self.follower, self.passes_through = None, False
        if self.sole_initiator is handle:
            self.sole_initiator = None

    def watch_pin(self, handle, is_on):
        listeners = self.room.edge_listeners
        if is_on:
            listeners.append(handle.edge)
            handle.edge(self.room.horizon, 1, cec.EVENT_INITIAL_STATE)
        else:
            listeners.remove(handle.edge)
        self.room.ask("edges on" if listeners else "edges off")

    def call_connector(self, handle, raw, nonblock, reply):
        reply(0, cec.CONNECTOR.pack(1, 0, 32 + self.number))

    def release(self, handle):
        """A handle is closed: what it waits for goes nowhere."""
        self.handles.remove(handle)
        if handle.follower == cec.MODE_MONITOR_PIN:
            self.watch_pin(handle, False)
        self.forget_mode(handle)
        for transfer in self.pending + self.awaiting:
            if transfer.handle is handle and transfer.done:
                transfer.handle = transfer.done = None
        handle.close()


def is_well_formed_for(message, version):
    return message.len == 1 or cec.is_well_formed(message, version)


def is_taken(given):
    """Whether CEC_ADAP_S_LOG_ADDRS takes these addresses; the fields that do not count are cleared."""
    if given.is_cdc_only:
        given.count, given.name, given.vendor, given.features[0] = 1, bytes(15), cec.NO_VENDOR, bytes(12)
        given.types[0], given.primary[0], given.all_types[0] = cec.TYPE_UNREGISTERED, cec.PRIMARY_SWITCH, 0
    if given.count > MOST_ADDRESSES or given.vendor != cec.NO_VENDOR and given.vendor >> 24 or given.version not in (cec.VERSION_1_4, cec.VERSION_2_0):
        return False
    for place in range(given.count):
        if given.types[place] > cec.TYPE_UNREGISTERED or given.primary[place] > cec.PRIMARY_PROCESSOR or given.primary[place] == 2:
            return False
        ends = [at for at, byte in enumerate(given.features[place]) if not byte & 0x80]
        if len(ends) < 2:
            return False
        given.features[place] = given.features[place][:ends[1] + 1].ljust(12, b"\0")
    for place in range(given.count, cec.MAX_LOG_ADDRS):
        given.types[place] = given.primary[place] = given.all_types[place] = 0
        given.features[place] = bytes(12)
    given.addresses = [cec.INVALID_ADDRESS] * cec.MAX_LOG_ADDRS
    given.name = given.name[:14] + b"\0"
    return True
