#!/usr/bin/env python3
"""A second model of the chip, the line and the list, written from documents 01 and 02 and their readings alone, without sight of the product's code.

    model.py < EVENTS        prints what the program `trace` must print for these events

It is no part of the gate: `tests/compare` runs it beside the programs, and crates/trace/stdout is its output.
"""
import sys

CHARACTER_WAITS, ANY_PENDING, BUFFER_EMPTY, DCD, HUNT, CTS, UNDERRUN, BREAK_ABORT = (1 << d for d in range(8))
LENGTHS = (5, 7, 6, 8)
SHAPES = (('1111000', 1), ('111000', 2), ('11000', 3), ('1000', 4))
GOOD = 0x1D0F
SDLC, CRC16 = 0x1021, 0x8005
BLOCKS = 'monosync', 'bisync'


def check_step(register, bit, polynomial=SDLC):
    """A polynomial is the number of its powers below x^16; x^15 in the top bit."""
    feedback = (register >> 15) ^ bit
    return ((register << 1) & 0xFFFF) ^ (polynomial if feedback else 0)


def check_over(register, bits, polynomial):
    for b in bits:
        register = check_step(register, b, polynomial)
    return register


def low_first(value, count):
    return [(value >> k) & 1 for k in range(count)]


def to_byte(bits):
    return sum(b << k for k, b in enumerate(bits))


class Entry:
    def __init__(self, byte, parity=False, framing=False, end=False, bad=False):
        self.byte, self.parity, self.framing, self.end, self.bad = byte, parity, framing, end, bad
        self.overrun = False


class Channel:
    def __init__(self, is_a, dcd=0, cts=0):
        self.is_a, self.dcd, self.cts = is_a, dcd, cts
        self.wr, self.pointer, self.mode = [0] * 8, 0, None
        self.buffer, self.full = 0, False
        self.queue, self.parity_latch, self.overrun_latch = [], False, False
        self.underrun, self.break_abort = True, False
        self.armed, self.transmit_pending = True, False
        self.send_check = self.receive_check = 0xFFFF
        self.latched, self.shown = False, 0
        self.idle_sender()
        self.restart_receiver()

    # ---- Registers

    def live(self):
        return ((BREAK_ABORT if self.break_abort else 0) | (UNDERRUN if self.underrun else 0) | (CTS if self.cts else 0)
                | (HUNT if self.synchronous() and self.hunt else 0) | (DCD if self.dcd else 0))

    def synchronous(self):
        return self.mode == 'sdlc' or self.mode in BLOCKS

    def polynomial(self):
        """Of Monosync and Bisync; SDLC has its own."""
        return CRC16 if self.wr[5] & 4 else SDLC

    def step(self, action, *arguments):
        """The status rule around one step: any change latches, but D6 falling alone."""
        before = self.live()
        answer = action(*arguments)
        after = self.live()
        if not self.latched and before != after and not (before ^ after == UNDERRUN and before & UNDERRUN):
            self.latched, self.shown = True, after
        return answer

    def show_afresh(self):
        if self.latched:
            old, new = self.shown, self.live()
            self.shown = new
            self.latched = old != new and not (old ^ new == UNDERRUN and old & UNDERRUN)

    def rr0(self, any_pending):
        empty = not self.full and not (self.synchronous() and self.unit == 'check')
        return ((CHARACTER_WAITS if self.queue else 0) | (ANY_PENDING if self.is_a and any_pending else 0)
                | (BUFFER_EMPTY if empty else 0) | (self.shown if self.latched else self.live()))

    def rr1(self):
        value = 1 if self.synchronous() or (not self.bits and not self.full) else 0
        value |= (0x10 if self.parity_latch else 0) | (0x20 if self.overrun_latch else 0)
        if self.queue:
            oldest = self.queue[0]
            value |= (0x86 if oldest.end else 0) | (0x40 if oldest.framing or (oldest.end and oldest.bad) else 0)
        if self.mode in BLOCKS:
            value = value & ~0x40 | (0x40 if self.receive_check else 0)
        return value

    def reset(self):
        self.__init__(self.is_a, self.dcd, self.cts)

    def write_register(self, n, value):
        self.pointer = 0
        if n == 2 and self.is_a:
            return
        self.wr[n] = value
        if n == 1 and not value & 2:
            self.transmit_pending = False
        elif n == 3 and value & 0x10 and self.synchronous():
            self.restart_receiver()
        elif n == 4:
            mode = 'async' if value & 0x0C else {0: 'monosync', 1: 'bisync', 2: 'sdlc'}[value >> 4 & 3]
            if mode != self.mode:
                self.mode = mode
                self.break_abort = False
                self.idle_sender()
                self.restart_receiver()

    def mid_code(self, code):
        preset = 0 if self.mode in BLOCKS else 0xFFFF
        if code == 1:
            self.receive_check = preset
        elif code == 2:
            self.send_check = preset
        elif code == 3:
            self.underrun = False

    # ---- Sending

    def sender_on(self):
        return bool(self.wr[5] & 8) and not (self.wr[3] & 0x20 and not self.cts)

    def idle_sender(self):
        self.unit, self.bits, self.run, self.owed = 'mark', [], 0, False

    def send_abort(self):
        if self.mode == 'sdlc' and self.sender_on() and self.unit != 'abort':
            self.full = False
            self.unit, self.bits, self.run, self.owed = 'abort', [1] * 8, 0, False
            self.underrun = True

    def load(self):
        self.full = False
        if self.wr[1] & 2:
            self.transmit_pending = True
        return self.buffer

    def start(self, unit, bits):
        self.unit, self.bits = unit, bits
        if unit not in ('byte', 'check'):
            self.run = 0

    def choose(self):
        included = self.wr[5] & 1
        if not self.sender_on():
            self.start('mark', [1])
        elif self.unit in ('flag', 'byte') and self.full:
            value = low_first(self.load(), 8)
            if included:
                for b in value:
                    self.send_check = check_step(self.send_check, b)
            self.start('byte', value)
        elif self.unit == 'byte' and not self.underrun and included:
            self.underrun = True
            self.start('check', [(~self.send_check >> k) & 1 for k in range(15, -1, -1)])
        else:
            if self.unit == 'byte':
                self.underrun = True
            self.start('flag', [0, 1, 1, 1, 1, 1, 1, 0])

    def sdlc_bit(self):
        if self.owed:
            self.owed, self.run = False, 0
            return 0
        if not self.bits:
            self.choose()
        bit = self.bits.pop(0)
        if self.unit in ('byte', 'check'):
            self.run = self.run + 1 if bit else 0
            self.owed = self.run == 5
        return bit

    def choose_in_block(self):
        checked = self.wr[5] & 1
        after, self.unit = self.unit, 'mark'
        if not self.sender_on():
            self.bits = [1]
        elif after != 'mark' and self.full:
            self.unit, self.bits = 'byte', low_first(self.load(), 8)
            if checked:
                self.send_check = check_over(self.send_check, self.bits, self.polynomial())
        elif after == 'byte' and checked and not self.underrun:
            self.unit, self.bits = 'check', [(self.send_check >> k) & 1 for k in range(15, -1, -1)]
            self.underrun = True
        else:
            second = low_first(self.wr[7], 8) if self.mode == 'bisync' else []
            self.unit, self.bits = 'sync', low_first(self.wr[6], 8) + second
            self.underrun |= after == 'byte'

    def block_bit(self):
        if not self.bits:
            self.choose_in_block()
        return self.bits.pop(0)

    def count_sent(self, value):
        """How many low bits of a byte go out; with length 00 its shape says it."""
        if self.wr[5] & 0x60:
            return LENGTHS[self.wr[5] >> 5 & 3]
        for above, count in SHAPES:
            if f'{value:08b}'.startswith(above):
                return count
        return 5

    def async_bit(self):
        if not self.bits and self.sender_on() and self.full:
            value = self.load()
            data = low_first(value, self.count_sent(value))
            parity = [(sum(data) + (0 if self.wr[4] & 2 else 1)) % 2] if self.wr[4] & 1 else []
            self.bits = [0] + data + parity + [1] * (2 if self.wr[4] & 0x0C == 0x0C else 1)
        return self.bits.pop(0) if self.bits else 1

    def transmit(self):
        if self.mode is None:
            return 1
        bit = self.sdlc_bit() if self.mode == 'sdlc' else self.block_bit() if self.mode in BLOCKS else self.async_bit()
        return 0 if self.wr[5] & 0x10 else bit

    # ---- Receiving

    def restart_receiver(self):
        self.hunt, self.skipping, self.ones = True, False, 0
        self.drop_frame()
        self.character, self.settings, self.waiting = None, None, False
        self.seen, self.to_enter, self.leading, self.turn = [], None, False, 0

    def drop_frame(self):
        self.delay, self.part, self.held = [], [], None

    def put(self, entry):
        if len(self.queue) == 3:
            entry.overrun = True
            self.queue[2] = entry
        else:
            self.queue.append(entry)
            if len(self.queue) == 1:
                self.became_oldest()

    def became_oldest(self):
        self.parity_latch |= self.queue[0].parity
        self.overrun_latch |= self.queue[0].overrun

    def data_read(self):
        if not self.queue:
            raise Refused(10)
        entry = self.queue.pop(0)
        self.armed = False
        if self.queue:
            self.became_oldest()
        return entry.byte

    def receive(self, bit):
        if self.mode is None:
            return
        if not self.wr[3] & 1 or (self.wr[3] & 0x20 and not self.dcd):
            self.break_abort = False
            self.restart_receiver()
        elif self.mode == 'sdlc':
            self.sdlc_receive(bit)
        elif self.mode in BLOCKS:
            self.block_receive(bit)
        else:
            self.async_receive(bit)

    def sdlc_receive(self, bit):
        ones, self.ones = self.ones, min(self.ones + 1, 8) if bit else 0
        if bit == 0:
            self.break_abort = False
            if ones == 6:
                self.flag()
            elif ones < 5:
                self.content(0)
        elif self.ones < 7:
            self.content(1)
        elif self.ones == 7 and not self.hunt:
            self.break_abort = True
            self.skipping = True
            self.drop_frame()

    def flag(self):
        if not self.hunt and not self.skipping and self.held is not None:
            good = not self.part and self.receive_check == GOOD
            self.put(Entry(self.held, end=True, bad=not good))
        self.hunt = self.skipping = False
        self.receive_check = 0xFFFF
        self.first = True
        self.drop_frame()

    def content(self, bit):
        if self.hunt or self.skipping:
            return
        self.delay.append(bit)
        if len(self.delay) <= 7:
            return
        out = self.delay.pop(0)
        self.receive_check = check_step(self.receive_check, out)
        self.part.append(out)
        if len(self.part) < 8:
            return
        byte, self.part = to_byte(self.part), []
        if self.first and self.wr[3] & 4 and byte not in (self.wr[6], 0xFF):
            self.skipping = True
            self.drop_frame()
            return
        self.first = False
        if self.held is not None:
            self.put(Entry(self.held))
        self.held = byte

    def block_receive(self, bit):
        two = self.mode == 'bisync'
        self.seen.append(bit)
        if self.hunt:
            sync = low_first(self.wr[6], 8) + low_first(self.wr[7], 8) if two else low_first(self.wr[7], 8)
            self.seen = self.seen[-len(sync):]
            if self.seen == sync:
                self.hunt, self.seen = False, []
                self.leading, self.turn, self.to_enter = True, 0, None
            return
        if len(self.seen) < 8:
            return
        byte, self.seen = to_byte(self.seen), []
        if self.to_enter is not None and self.wr[3] & 8:
            self.receive_check = check_over(self.receive_check, low_first(self.to_enter, 8), self.polynomial())
        self.to_enter = byte
        awaited = self.wr[6] if two and self.turn == 0 else self.wr[7]
        self.turn = 1 - self.turn
        self.leading = self.leading and byte == awaited
        if not (self.leading and self.wr[3] & 2):
            self.put(Entry(byte))

    def async_receive(self, bit):
        if self.waiting:
            if bit:
                self.waiting, self.break_abort = False, False
            return
        if self.character is None:
            if bit == 0:
                self.character = []
                self.settings = LENGTHS[self.wr[3] >> 6], self.wr[4] & 1, self.wr[4] >> 1 & 1
            return
        length, parity, even = self.settings
        if len(self.character) < length + parity:
            self.character.append(bit)
            return
        wrong = parity == 1 and sum(self.character) % 2 == even
        byte = to_byte((self.character + [1] * 8)[:8])
        self.put(Entry(byte, parity=wrong, framing=bit == 0))
        if bit == 0:
            self.waiting = True
            self.break_abort = not any(self.character)
        self.character = None

    # ---- Interrupts

    def special(self):
        if not self.queue:
            return False
        e = self.queue[0]
        return e.overrun or e.framing or e.end or (e.parity and self.receive_mode() == 2)

    def receive_mode(self):
        return self.wr[1] >> 3 & 3

    def pending(self):
        mode = self.receive_mode()
        waits = bool(self.queue) and (mode > 1 or self.armed)
        return [mode > 0 and (waits or self.special()), self.transmit_pending, self.latched and bool(self.wr[1] & 1)]


class Refused(Exception):
    pass


class Chip:
    def __init__(self):
        self.channels = Channel(True), Channel(False)
        self.service = set()

    def pending(self):
        every = self.channels[0].pending() + self.channels[1].pending()
        return [k for k in range(6) if every[k]]

    def vector(self, source):
        b = self.channels[1]
        if not b.wr[1] & 4:
            return b.wr[2]
        if source is None:
            code = 3
        else:
            receive = 3 if self.channels[source // 3].special() else 2
            code = (receive, 0, 1)[source % 3] + (4 if source < 3 else 0)
        return (b.wr[2] & 0xF1) | code << 1

    def rr2(self):
        return self.vector((self.pending() + [None])[0])

    def acknowledge(self):
        waiting = self.pending()
        if not waiting or any(s <= waiting[0] for s in self.service):
            raise Refused(4)
        self.service.add(waiting[0])
        return self.vector(waiting[0])

    def reti(self):
        if self.service:
            self.service.remove(min(self.service))

    def rr0(self, k):
        return self.channels[k].rr0(bool(self.pending()))

    def control_write(self, k, value):
        c = self.channels[k]
        n = c.pointer
        if n == 4 and (value >> 6 or value & 0x0C == 8 or (value & 0x0C == 0 and value & 0x30 == 0x30)):
            raise Refused(3)
        if n:
            c.step(c.write_register, n, value)
            return
        command = value >> 3 & 7
        if command == 3:
            c.reset()
            self.service -= set(range(3 * k, 3 * k + 3))
            return
        if command == 1:
            c.step(c.send_abort)
        elif command == 2:
            c.show_afresh()
        elif command == 4:
            c.armed = True
        elif command == 5:
            c.transmit_pending = False
        elif command == 6:
            c.parity_latch = c.overrun_latch = False
        elif command == 7 and c.is_a:
            self.reti()
        c.step(c.mid_code, value >> 6)
        c.pointer = value & 7

    def control_read(self, k):
        c = self.channels[k]
        n, c.pointer = c.pointer, 0
        if n == 0:
            return self.rr0(k)
        if n == 1:
            return c.rr1()
        return self.rr2() if n == 2 and k == 1 else 0

    def data_write(self, k, value):
        c = self.channels[k]
        c.buffer, c.full, c.transmit_pending = value, True, False

    def set_lines(self, k, dcd, cts):
        c = self.channels[k]

        def both():
            c.dcd, c.cts = dcd, cts
        c.step(both)

    def event(self, code, x, y, z):
        if 1 <= code <= 7 and x > 1:
            raise Refused(1)
        if (code == 6 and y > 1) or (code == 7 and (y > 1 or z > 1)):
            raise Refused(2)
        if code == 0:
            self.__init__()
        elif code == 1:
            self.control_write(x, y)
        elif code == 2:
            return self.control_read(x)
        elif code == 3:
            self.data_write(x, y)
        elif code == 4:
            return self.channels[x].data_read()
        elif code == 5:
            return self.channels[x].step(self.channels[x].transmit)
        elif code == 6:
            self.channels[x].step(self.channels[x].receive, y)
        elif code == 7:
            self.set_lines(x, y, z)
        elif code == 8:
            return self.acknowledge()
        elif code == 9:
            self.reti()
        return 0

    def line(self, event):
        try:
            refusal, value = 0, self.event(*event) or 0
        except Refused as r:
            refusal, value = r.args[0], 0
        a, b = self.channels
        return (refusal, value, self.rr0(0), a.rr1(), self.rr0(1), b.rr1(), self.rr2())


# ---- Note list and line

FLAG = [0, 1, 1, 1, 1, 1, 1, 0]


def check_of(text):
    """As it is sent, x^15 first."""
    register = 0xFFFF
    for byte in text:
        for bit in low_first(byte, 8):
            register = check_step(register, bit)
    return [(~register >> k) & 1 for k in range(15, -1, -1)]


def line_of(note):
    """The bits of a note's frame, flags included, and the zeros inserted."""
    if not 1 <= len(note) <= 2048:
        raise Refused(6)
    bits, ones, zeros = [], 0, 0
    for bit in [b for byte in note for b in low_first(byte, 8)] + check_of(note):
        bits.append(bit)
        ones = ones + 1 if bit else 0
        if ones == 5:
            bits.append(0)
            ones, zeros = 0, zeros + 1
    return FLAG + bits + FLAG, zeros


def written(note, room, place):
    bits, zeros = line_of(note)
    if place > room or room - place < len(bits):
        raise Refused(8)
    return bits, zeros


def notes_of(data):
    if len(data) > 65535:
        raise Refused(9)
    if not data or data[0] != 1:
        raise Refused(5)
    notes, i = [], 1
    while i < len(data):
        if len(data) - i < 2:
            raise Refused(7)
        length = data[i] << 8 | data[i + 1]
        if not 1 <= length <= 2048:
            raise Refused(6)
        if len(data) - i - 2 < length:
            raise Refused(7)
        notes.append(data[i + 2:i + 2 + length])
        i += 2 + length
    return notes


def list_line(notes, shared):
    """The bits of a list's notes, one behind the other: each a whole frame, or behind the flag that closed the one before."""
    line = []
    for note in notes:
        bits = line_of(note)[0]
        line += bits[8:] if shared and line else bits
    return line


def report(data, shared=False):
    """A row for each note of a list, and the ticks in all."""
    notes, rows = notes_of(data), []
    for number, note in enumerate(notes, 1):
        bits, zeros = line_of(note)
        rows.append([number, len(note), zeros, len(bits)])
    return rows, len(list_line(notes, shared))


def page_ticks(data):
    return report(data, shared=True)[1]


def run(data):
    if len(data) > 65536:
        return ['too long']
    chip, lines = Chip(), []
    for i in range(0, len(data), 4):
        event = data[i:i + 4]
        if len(event) < 4:
            lines.append(f'cut {i // 4 + 1}')
        elif event[0] > 9:
            lines.append(f'unknown {i // 4 + 1}')
            break
        else:
            lines.append(' '.join(map(str, chip.line(event))))
    return lines


if __name__ == '__main__':
    if sys.argv[1:]:
        print(__doc__.strip(), file=sys.stdout if sys.argv[1] in ('-h', '--help') else sys.stderr)
        sys.exit(0 if sys.argv[1] in ('-h', '--help') else 2)
    sys.stdout.write(''.join(line + '\n' for line in run(sys.stdin.buffer.read())))
