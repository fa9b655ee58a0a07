"""Where the programs' calls arrive: a socket, an adapter for each seat, and the programs' time.

Each packet of a program is eight numbers (what is asked, a handle or an adapter, the number of the call, whether the handle does not
block, how many bytes follow, the process, the thread, whether it runs beside) and bytes; each answer three (result, handle, how many bytes
follow) and bytes. tools/cec/shim.c writes and reads them."""

import collections
import mmap
import os
import selectors
import socket
import struct
import time
import typing

from adapter import Adapter, Handle
from linux_cec import ENODEV
from room import Refused

# What a packet asks.
OPEN, CALL, ROOM, WAIT, BEGIN, END, WAKE = 1, 2, 3, 4, 5, 6, 7
QUESTION, ANSWER = struct.Struct("=8I"), struct.Struct("=iII")
INTEREST, WAITED, SHARED_CLOCK = struct.Struct("=II"), struct.Struct("=QII"), struct.Struct("=QQQ")
DONE = ANSWER.pack(0, 0, 0)
FOR_EVER = 1 << 63
# How often a frame is due on the wire by the wall clock, in seconds; how often where none is on its way.
SENDING_TURN, QUIET_TURN = 0.002, 0.004
# In the room's time, how far one turn goes where no time-out comes before, in seconds.
ROOM_TURN = 0.01
# How long the server waits for a packet while the room stands, in seconds.
STANDING = 0.5
# How long a program of several threads that opens its first device may take until the others wait, in seconds.
SETTLING = 1


class Process:
    """A program: how many handles it has open; where it has several threads, which they are, and which of them wait; whether it runs beside (time
    goes on while it alone waits for nothing); and whether it counts, since it has had a device."""

    def __init__(self, is_beside):
        self.handles, self.is_beside, self.threads, self.resting, self.is_seated = 0, is_beside, set(), set(), False


class Thread(typing.NamedTuple):
    """A thread of a process, by the numbers of both."""
    number: int
    process: int


class Reply:
    """The answer to a call, which is given once: at once or later."""

    def __init__(self, server, link, number, call, thread):
        self.server, self.link, self.number, self.name, self.thread = server, link, number, call, thread

    def __call__(self, result, data=b""):
        if self.server.log:
            self.server.log("%d call %d of handle %d: %d %s" % (self.server.room.horizon, self.name & 0xFF, self.number, result, data.hex()))
        self.server.answer(self.thread, self.link, ANSWER.pack(result, self.number, len(data)) + data)

    def is_gone(self):
        """Whether the program has hung up."""
        return self.link.fileno() < 0


class Wait:
    """A thread that waits: for so many microseconds, until a handle is ready or a descriptor can be read, or until another thread wakes this wait by
    its number."""

    def __init__(self, server, link, thread, micros, serial, watched, descriptors):
        self.server, self.link, self.thread, self.micros, self.serial = server, link, thread, micros, serial
        self.watched, self.descriptors, self.is_over, self.timer = watched, descriptors, False, None

    def begin(self):
        for handle, _ in self.watched:
            handle.watchers.append(self.look)
        self.look(self.micros == 0)
        for descriptor in self.descriptors if not self.is_over else []:
            try:
                self.server.selector.register(descriptor, selectors.EVENT_READ, lambda: self.end(1))
            except PermissionError:
                # What cannot be watched, as a file, can be read.
                self.end(1)
        if not self.is_over and self.micros < FOR_EVER:
            self.server.limit(self)

    def look(self, is_late=False):
        ready = [wanted & handle.state() for handle, wanted in self.watched]
        if any(ready) or is_late:
            self.end(sum(map(bool, ready)), ready)

    def end(self, result, ready=()):
        if not self.is_over:
            self.forget()
            ready = ready or [0] * len(self.watched)
            self.server.answer(self.thread, self.link, ANSWER.pack(result, 0, 4 * len(ready)) + struct.pack("=%dI" % len(ready), *ready))

    def forget(self):
        """It is over, or the program has hung up."""
        self.is_over = True
        for handle, _ in self.watched:
            if self.look in handle.watchers:
                handle.watchers.remove(self.look)
        for descriptor in self.descriptors:
            if descriptor in self.server.selector.get_map():
                self.server.selector.unregister(descriptor)
            os.close(descriptor)
        self.server.waits.pop(self.thread.number, None)
        self.server.forget_limit(self)


class Server:
    def __init__(self, room, clock, seats, path, stall, log=None):
        self.room, self.clock, self.path, self.stall, self.log = room, clock, path, stall, log
        self.timers, self.handles, self.next_handle = [], {}, 1
        self.adapters = [Adapter(room, clock, self.later, name, number) for number, name in enumerate(seats)]
        # The processes with handles or threads; in the room's time the threads that are at work, since when, and the answers that wait for their turn.
        self.processes, self.working, self.worked_since = {}, set(), time.monotonic()
        self.answers: collections.deque[tuple] = collections.deque()
        # What threads wait for, by their number; whose next wait of that number is over already; time-outs by the clock on the wall, of processes without a
        # device; what tells the end of each process of several threads.
        self.waits, self.woken, self.wall_timers, self.ends = {}, {}, [], {}
        # Who opens a first device while other threads of the process are at work: until when that is waited for, and what `seat` takes.
        self.openings = []
        # Who waits until so many programs run beside; how many lines of `cec-room` wait for an instant.
        self.barriers, self.sleepers = [], 0
        self.shared = None
        self.selector = selectors.DefaultSelector()
        self.listener = socket.socket(socket.AF_UNIX, socket.SOCK_SEQPACKET)
        self.listener.bind(path)
        self.listener.listen(64)
        self.selector.register(self.listener, selectors.EVENT_READ, self.accept)

    def later(self, seconds, call):
        self.timers.append((self.clock.now() + seconds, call))

    def share_clock(self, path):
        """The file by which the programs read the room's time."""
        with open(path, "wb") as file:
            file.write(bytes(mmap.PAGESIZE))
        with open(path, "r+b") as file:
            self.shared = mmap.mmap(file.fileno(), mmap.PAGESIZE)
        SHARED_CLOCK.pack_into(self.shared, 0, self.clock.MONOTONIC * 10**9, self.clock.REALTIME * 10**9, self.room.horizon)

    # Packets.

    def accept(self):
        link, _ = self.listener.accept()
        self.selector.register(link, selectors.EVENT_READ, lambda: self.read(link))

    def read(self, link):
        try:
            packet, descriptors, _, _ = socket.recv_fds(link, 4096, 1)
        except OSError:
            packet, descriptors = b"", []
        if len(packet) < QUESTION.size:
            self.hung_up(link)
            return
        asked, number, call, nonblock, size, pid, tid, is_beside = QUESTION.unpack(packet[:QUESTION.size])
        given, thread = packet[QUESTION.size:QUESTION.size + size], Thread(tid, pid)
        if asked == ROOM:
            self.room_line(link, packet[QUESTION.size:].decode("utf-8", "replace"))
        elif asked == WAKE:
            self.wake(link, number, call)
        elif asked == BEGIN:
            self.begin(link, thread, bool(is_beside))
        elif asked == END:
            self.end(link, thread)
        else:
            self.rests(thread)
            if asked == OPEN:
                self.open(link, number, thread, bool(is_beside))
            elif asked == CALL:
                self.call(link, number, call, given, nonblock, thread)
            elif asked == WAIT:
                self.wait(link, given, thread, descriptors)

    def hung_up(self, link):
        self.openings = [opening for opening in self.openings if opening[1] is not link]
        for wait in [wait for wait in self.waits.values() if wait.link is link]:
            wait.forget()
        for number, handle in list(self.handles.items()):
            if handle.link is link:
                handle.adapter.release(handle)
                del self.handles[number]
                process = self.processes.get(handle.process)
                if process:
                    process.handles -= 1
                    self.forget_if_over(handle.process)
        self.selector.unregister(link)
        link.close()

    def forget_if_over(self, pid):
        """A process of one thread counts while it has a device; one of several to its end."""
        process = self.processes.get(pid)
        if process and not process.handles and len(process.threads) <= 1:
            self.forget(pid)

    def forget(self, pid):
        self.processes.pop(pid, None)
        self.worked_since = time.monotonic()
        self.working = {thread for thread in self.working if thread.process != pid}

    def works(self, thread):
        """In the room's time a thread is at work, where its process counts."""
        process = self.processes.get(thread.process)
        if process is None:
            return
        process.resting.discard(thread.number)
        if process.is_seated and (not process.threads or thread.number in process.threads):
            if not self.working:
                self.worked_since = time.monotonic()
            self.working.add(thread)

    def rests(self, thread):
        self.working.discard(thread)
        self.worked_since = time.monotonic()
        if thread.process in self.processes:
            self.processes[thread.process].resting.add(thread.number)

    def answer(self, thread, link, packet, rights=()):
        """Answers a thread in its turn; at once where its process does not count yet."""
        process = self.processes.get(thread.process)
        if process and not process.is_seated:
            self.send(thread, link, packet, rights)
        else:
            self.answers.append((thread, link, packet, rights))

    def send(self, thread, link, packet, rights):
        if self.tell(link, packet, rights):
            self.works(thread)

    def tell(self, link, packet, rights=()):
        """Sends a packet. Returns whether the program is still there."""
        try:
            link.sendmsg([packet], rights)
        except OSError:
            return False
        return True

    def open(self, link, number, thread, is_beside):
        """A program opens a device. Where it has several threads, the others first come to where they wait."""
        process = self.processes.get(thread.process)
        if number >= len(self.adapters):
            self.tell(link, ANSWER.pack(-ENODEV, 0, 0))
        elif process and not process.is_seated:
            self.openings.append((time.monotonic() + SETTLING, link, number, thread))
        else:
            self.seat(link, number, thread, is_beside)

    def seat_who_wait(self):
        for opening in list(self.openings):
            until, link, number, thread = opening
            process = self.processes.get(thread.process)
            if process is None or process.threads <= process.resting or time.monotonic() > until:
                self.openings.remove(opening)
                self.seat(link, number, thread, process is not None and process.is_beside)

    def seat(self, link, number, thread, is_beside):
        handle = Handle(self.adapters[number], link, thread.process)
        self.adapters[number].handles.append(handle)
        self.handles[self.next_handle] = handle
        answer = thread, link, ANSWER.pack(0, self.next_handle, 0), handle.rights()
        self.next_handle += 1
        process = self.processes.setdefault(thread.process, Process(is_beside))
        process.handles += 1
        if not process.is_seated:
            process.is_seated = True
            self.take_in(thread.process)
        if process.threads:
            self.answer(*answer)
        else:
            self.send(*answer)

    def take_in(self, pid):
        """A process has its first device: from now on its threads count, and what they wait for is in the room's time."""
        for number in self.processes[pid].threads - self.processes[pid].resting:
            self.works(Thread(number, pid))
        late = [wait for _, wait in self.wall_timers if wait.thread.process == pid]
        self.wall_timers = [timer for timer in self.wall_timers if timer[1] not in late]
        for wait in late:
            self.limit(wait)

    def call(self, link, number, call, given, nonblock, thread):
        handle = self.handles.get(number)

        reply = Reply(self, link, number, call, thread)
        if handle is None:
            reply(-ENODEV)
        else:
            handle.adapter.call(handle, call & 0xFF, call >> 16 & 0x3FFF, given, nonblock, reply)

    def wait(self, link, given, thread, descriptors):
        micros, serial, count = WAITED.unpack(given[:WAITED.size])
        asked = [INTEREST.unpack_from(given, WAITED.size + INTEREST.size * at) for at in range(count)]
        watched = [(self.handles.get(number), wanted) for number, wanted in asked]
        wait = Wait(self, link, thread, micros, serial, [(handle, wanted) for handle, wanted in watched if handle], descriptors)
        self.waits[thread.number] = wait
        if serial and self.woken.pop(thread.number, None) == serial:
            wait.end(1)
        else:
            wait.begin()

    def limit(self, wait):
        """Ends a wait when its time is over: of the room, or of the clock on the wall where the process does not count."""
        process = self.processes.get(wait.thread.process)
        if process and not process.is_seated:
            self.wall_timers.append((time.monotonic() + wait.micros / 1e6, wait))
        else:
            wait.timer = self.clock.began + (self.room.horizon + wait.micros) / 1e6, lambda: wait.look(True)
            self.timers.append(wait.timer)

    def forget_limit(self, wait):
        """A wait is over. Threads wake each other before most of their time-outs, which then are no turns of the room."""
        self.wall_timers = [timer for timer in self.wall_timers if timer[1] is not wait]
        process = self.processes.get(wait.thread.process)
        if wait.timer in self.timers and process and process.threads:
            self.timers.remove(wait.timer)

    # Threads.

    def begin(self, link, thread, is_beside):
        """A process has one thread more. It is answered twice: that it is known, and when it is its turn."""
        process = self.processes.setdefault(thread.process, Process(is_beside))
        if not process.threads:
            process.threads.add(thread.process)
        if thread.process not in self.ends:
            self.watch_end(thread.process)
        process.threads.add(thread.number)
        process.resting.add(thread.number)
        self.tell(link, DONE)
        self.answer(thread, link, DONE)

    def end(self, link, thread):
        self.rests(thread)
        self.woken.pop(thread.number, None)
        if thread.process in self.processes:
            self.processes[thread.process].threads.discard(thread.number)
            self.forget_if_over(thread.process)
        self.tell(link, DONE)

    def wake(self, link, number, serial):
        """A thread's wait of this number is over, or will be once it begins."""
        wait = self.waits.get(number)
        if wait is None:
            self.woken[number] = serial
        elif wait.serial == serial:
            wait.end(1)
        self.tell(link, DONE)

    def watch_end(self, pid):
        def over():
            self.selector.unregister(ended)
            os.close(self.ends.pop(pid))
            self.forget(pid)
        try:
            ended = os.pidfd_open(pid)
        except OSError:
            return
        self.ends[pid] = ended
        self.selector.register(ended, selectors.EVENT_READ, over)

    def room_line(self, link, line):
        """A line of `cec-room`: an event of the room; `show NAME`; `wait N`, which is answered N microseconds later; or `beside`, which is
        answered once one more program beside waits."""
        self.clock.advance()
        label, words = None, line.split(" ")
        if words[0] == "label" and len(words) > 2:
            label, words = words[1], words[2:]
        if words == ["beside"]:
            self.barriers.append((self.waiting_beside() + 1, link))
            return
        if words[0] == "wait" and len(words) == 2 and words[1].isdigit():
            self.sleep(link, int(words[1]))
            return
        text = " ".join(words)
        answer = self.room.ask(text) if words[0] == "show" else self.room.event(text, label)
        link.send(answer["line"].encode())

    def sleep(self, link, micros):
        def over():
            self.sleepers -= 1
            link.send(b"= %d" % self.room.horizon)
        self.sleepers += 1
        self.later(micros / 1e6, over)

    def deliver(self):
        """Hands the answers on. In the room's time one thread works at a time, until it waits again, so that nothing hangs on the machine."""
        while self.answers and (self.clock.by_wall or not self.working):
            self.send(*self.answers.popleft())

    def seated(self):
        """The processes that count, by their number."""
        return {pid: process for pid, process in self.processes.items() if process.is_seated}

    def waiting_beside(self):
        """How many programs beside wait."""
        at_work = {thread.process for thread in self.working}
        return sum(process.is_beside and pid not in at_work for pid, process in self.seated().items())

    def lift_barriers(self):
        for barrier in [each for each in self.barriers if each[0] <= self.waiting_beside()]:
            self.barriers.remove(barrier)
            barrier[1].send(b"there")

    # Time.

    def next_timer(self):
        """CLOCK_MONOTONIC of the next time-out of anybody."""
        deadlines = [adapter.next_deadline() for adapter in self.adapters]
        return min([at for at, _ in self.timers] + [at for at in deadlines if at is not None], default=None)

    def turn(self):
        """Takes what has come, goes on with the room, and hands on what is answered."""
        if self.clock.by_wall:
            patience = SENDING_TURN if any(seat.sending for seat in self.room.seats.values()) else QUIET_TURN
        else:
            patience = 0 if self.goes_on() else self.patience()
        for key, _ in self.selector.select(patience):
            key.data()
        if self.clock.by_wall:
            self.clock.advance()
        elif self.goes_on() and not self.answers:
            until = self.clock.now() + ROOM_TURN
            timer = self.next_timer()
            self.room.go(max(self.room.horizon + 1, self.clock.instant(until if timer is None else min(until, timer))))
            SHARED_CLOCK.pack_into(self.shared, 0, self.clock.MONOTONIC * 10**9, self.clock.REALTIME * 10**9, self.room.horizon)
        self.time_out()
        self.seat_who_wait()
        self.deliver()
        self.lift_barriers()
        self.watch_stall()

    def goes_on(self):
        """In the room's time: whether every thread waits, and one of them is of no program beside."""
        return not self.working and (self.sleepers > 0 or any(not process.is_beside for process in self.seated().values()))

    def patience(self):
        """How long the room may stand, in seconds, where nothing comes: up to a time-out by the clock on the wall."""
        now = time.monotonic()
        return max(0.0, min([STANDING] + [each[0] - now for each in self.wall_timers + self.openings]))

    def time_out(self):
        for adapter in self.adapters:
            adapter.end_late_replies()
        now = self.clock.now() + 1e-9
        for timer in [timer for timer in self.timers if timer[0] <= now]:
            if timer in self.timers:
                self.timers.remove(timer)
                timer[1]()
        wall = time.monotonic()
        for wait in [wait for until, wait in self.wall_timers if until <= wall]:
            wait.look(True)

    def watch_stall(self):
        """In the room's time a program that never waits holds all others up."""
        if not self.clock.by_wall and self.working and time.monotonic() - self.worked_since > self.stall:
            raise Refused("%s has not waited for %d seconds, so the room's time stands; `--clock wall` takes what works for long, or waits for what the room does not see"
                          % (self.at_work(), self.stall))

    def at_work(self):
        """The processes that are at work, as a message names them."""
        return ", ".join(map(named, sorted({thread.process for thread in self.working})))

    def close(self):
        for wait in list(self.waits.values()):
            wait.forget()
        for key in list(self.selector.get_map().values()):
            if isinstance(key.fileobj, socket.socket):
                key.fileobj.close()
        for ended in self.ends.values():
            os.close(ended)
        self.selector.close()
        for handle in self.handles.values():
            handle.close()
        os.unlink(self.path)


def named(pid):
    """A process as a message names it."""
    try:
        with open("/proc/%d/comm" % pid, encoding="utf-8") as file:
            return "%s (process %d)" % (file.read().strip(), pid)
    except OSError:
        return "process %d" % pid
