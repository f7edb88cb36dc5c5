"""Instructions of a module as the text format has them, read from its bytes: WebAssembly Core 1.0, 5.4 and 6.5, the threads
proposal, and the sign extensions."""

NAMES = dict(enumerate('''unreachable nop block loop if else - - - - - end br br_if br_table return call call_indirect - - - - - - - - drop select
- - - - local.get local.set local.tee global.get global.set - - - i32.load i64.load - - i32.load8_s i32.load8_u i32.load16_s i32.load16_u
i64.load8_s i64.load8_u i64.load16_s i64.load16_u i64.load32_s i64.load32_u i32.store i64.store - - i32.store8 i32.store16 i64.store8
i64.store16 i64.store32 memory.size memory.grow i32.const i64.const - - i32.eqz i32.eq i32.ne i32.lt_s i32.lt_u i32.gt_s i32.gt_u i32.le_s
i32.le_u i32.ge_s i32.ge_u i64.eqz i64.eq i64.ne i64.lt_s i64.lt_u i64.gt_s i64.gt_u i64.le_s i64.le_u i64.ge_s i64.ge_u
- - - - - - - - - - - - i32.clz i32.ctz i32.popcnt i32.add i32.sub i32.mul i32.div_s i32.div_u i32.rem_s i32.rem_u i32.and i32.or i32.xor i32.shl
i32.shr_s i32.shr_u i32.rotl i32.rotr i64.clz i64.ctz i64.popcnt i64.add i64.sub i64.mul i64.div_s i64.div_u i64.rem_s i64.rem_u i64.and
i64.or i64.xor i64.shl i64.shr_s i64.shr_u i64.rotl i64.rotr - - - - - - - - - - - - - - - - - - - - - - - - - - - - i32.wrap_i64 - - - -
i64.extend_i32_s i64.extend_i32_u'''.split()))
NAMES.update(zip(range(0xc0, 0xc5), 'i32.extend8_s i32.extend16_s i64.extend8_s i64.extend16_s i64.extend32_s'.split()))
def forms(name, mark, behind=''):
    """Of an access its seven forms, by their numbers."""
    return [kind + '.atomic.' + name + bits + behind + (mark if bits else '') for kind, bits in (('i32', ''), ('i64', ''), ('i32', '8'), ('i32', '16'), ('i64', '8'), ('i64', '16'), ('i64', '32'))]
ATOMIC = dict(enumerate(['memory.atomic.notify', 'memory.atomic.wait32', 'memory.atomic.wait64', 'atomic.fence']))
ATOMIC.update(enumerate(forms('load', '_u') + forms('store', '') + [it for op in ('add', 'sub', 'and', 'or', 'xor', 'xchg', 'cmpxchg') for it in forms('rmw', '_u', '.' + op)], 0x10))
# the natural alignment of an access of memory: exponents by names, where the bits stand in it
def natural(name):
    bits = next((n for n in ('8', '16', '32') if any(mark + n in name for mark in ('load', 'store', 'rmw', 'wait'))), None)
    return {'8': 0, '16': 1, '32': 2, None: 3}[bits] if bits or name.startswith('i64') or name.endswith('64') else 2

class Reader:
    def __init__(self, data, at): self.data, self.at = data, at
    def byte(self): self.at += 1; return self.data[self.at - 1]
    def number(self, signed=False):
        value = shift = 0
        while True:
            byte = self.byte()
            value |= (byte & 127) << shift; shift += 7
            if byte < 128: return value - (1 << shift) if signed and byte & 64 else value
    def accessed(self, name):
        align, offset = self.number(), self.number()
        return name + (' offset=%d' % offset if offset else '') + (' align=%d' % 2 ** align if align != natural(name) else '')
    def instruction(self):
        code = self.byte()
        if code == 0xfe:
            name = ATOMIC[self.number()]
            if name == 'atomic.fence': self.byte(); return name
            return self.accessed(name)
        name = NAMES[code]
        if code in (0x02, 0x03, 0x04): return name + {0x40: '', 0x7f: ' (result i32)', 0x7e: ' (result i64)'}[self.byte()]
        if code in (0x0c, 0x0d, 0x10) or 0x20 <= code <= 0x24: return '%s %d' % (name, self.number())
        if code == 0x0e: return ' '.join([name] + [str(self.number()) for _ in range(self.number() + 1)])
        if code == 0x11: kind = self.number(); self.byte(); return '%s (type %d)' % (name, kind)
        if 0x28 <= code <= 0x3e: return self.accessed(name)
        if code in (0x3f, 0x40): self.byte(); return name
        if code in (0x41, 0x42): return '%s %d' % (name, self.number(signed=True))
        return name

def disassembled(data):
    """Of each function with a body its instructions, each with its offset."""
    reader, found = Reader(data, 8), []
    while reader.at < len(data):
        section, size = reader.byte(), reader.number()
        behind = reader.at + size
        for _ in range(reader.number() if section == 10 else 0):
            length = reader.number()
            end, body = reader.at + length, []
            for _ in range(reader.number()): reader.number(); reader.byte()
            while reader.at < end: at = reader.at; body.append((at, reader.instruction()))
            found.append(body)
        reader.at = behind
    return found
