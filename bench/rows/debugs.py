"""Dialogues with a debugger of a replay, by the model. The world behind each step of the way is kept, so going back takes worlds off."""
import re
from model import World, s32, s64, schedule_text
from views import bytes_shown, thread_line

# ---- gathered logs

CLASH = object()
KINDS = ('access', 'woken', 'timedout')

class Cursor:
    def __init__(self, content): self.content, self.at = content, 0
    def take(self, size): self.at += size; return self.content[self.at - size:self.at]
    def number(self, size): return int.from_bytes(self.take(size), 'little')

def found_in(piece):
    number = piece.number(4)
    if piece.number(1) == 0: return 'r%d@%d' % (number, piece.number(8))
    return 'w%d@%d/%d' % (number, piece.number(8), piece.number(8))

def outcome_in(piece):
    kind = piece.number(1)
    if kind in (3, 4):
        size = 4 if kind == 3 else 8
        return 'i%d %d' % (8 * size, int.from_bytes(piece.take(size), 'little', signed=True))
    return 'trap %d' % piece.number(1) if kind == 5 else ('running', 'waiting', 'none')[kind]

class Gathered:
    """What lines of pieces claim: the entries of threads at places, and their ends. What is claimed in two ways is a clash."""
    def __init__(self, lines):
        self.entries, self.ends, self.block = {}, {}, 64
        for line in lines.splitlines(): self.put(Cursor(bytes.fromhex(line)))
    def claim(self, claims, at, item): claims[at] = item if claims.get(at, item) == item else CLASH
    def put(self, piece):
        form = piece.take(4)
        piece.take(32 + 8)
        if form == b'IRP\2': self.block = 1 << piece.number(1)
        thread, first, count, ends = piece.number(1), piece.number(4), piece.number(2), piece.number(1)
        for place in range(first, first + count):
            kind, touched = piece.number(1), piece.number(1)
            self.claim(self.entries, (thread, place), (KINDS[kind], [found_in(piece) for _ in range(touched)]))
        if ends: self.claim(self.ends, thread, (piece.number(4), piece.number(4), outcome_in(piece)))

# ---- turns, by their tests in order

def touch(word): return word.split('@')[0]

def is_met(world, word):
    number, found = word[1:].split('@')
    version, _, reads = found.partition('/')
    o = int(number)
    return world.version.get(o, 0) == int(version) and (not reads or world.reads.get(o, 0) == int(reads))

def stands(world, t):
    outcome = world.outcome(t).split(' ')
    return t.steps, len(t.entries), ' '.join(outcome[:2])

def turn(world, log, n):
    """What a turn of a thread does: a local step, an event, or none; and the world behind it."""
    if n >= len(world.threads): return 'done', world
    t, end = world.threads[n], log.ends.get(n)
    if end is None or end is CLASH: return 'missing' if end is None else 'clash', world
    if t.steps >= end[0]: return 'done' if stands(world, t) == end else 'diverged', world
    if t.out is not None: return 'diverged', world
    after = world.copied()
    if t.sleep is None:
        after.pick(n, True, 10**9)
        if len(after.threads[n].entries) == len(t.entries): return 'local', after
        touched = [touch(word) for word in after.threads[n].entries[-1][1]]
    else: touched = ['w%d' % (2 + 2 * (t.sleep[0] // world.block))]
    entry = log.entries.get((n, len(t.entries)))
    if len(t.entries) >= end[1]: return 'diverged', world
    if entry is None or entry is CLASH: return 'missing' if entry is None else 'clash', world
    kind, found = entry
    if (kind == 'access') != (t.sleep is None) or [touch(word) for word in found] != touched: return 'diverged', world
    if not all(is_met(world, word) for word in found): return 'shut', world
    if t.sleep is not None and not after.pick(n, kind == 'woken', 10**9): return 'diverged', world
    return 'event', after

# ---- a debugger

UNKNOWN = 'error: no such command, try help\n'
HELP = '''\
step T [N]      go on with thread T alone, by N steps (1)
event T [N]     go on with thread T alone, up to behind its Nth event (1) from here
finish T        go on with thread T alone, until the function that it is in returns
continue        go on with all threads, up to a break
again N         go on with all threads, past N breaks and up to the next
back [N]        go back by N steps (1), of whichever threads made them
reverse         go back to the break before, or to the beginning
goto T P        go to where thread T has made P events, from the beginning on
writer! FROM    go to behind the event that wrote the block of this byte last
break F [N]     break where a thread comes to instruction N (0) of function F
place T P       break behind the event of thread T after which it has made P
write FROM LEN  break behind a write of a block that holds one of these bytes
watch FROM LEN  break where the number in these 1, 2, 4 or 8 bytes changes;
      [N]       with N, where it comes to be N or is N no more
delete          forget all breaks
threads         how each thread stands, and where
where T         how thread T stands, and where
locals T [N]    the locals of the function that thread T runs, or of its Nth caller
stack T [N]     its operands, the topmost first
waits T         which events must come before the next event of thread T
bytes FROM LEN  these bytes, and the versions of their blocks
around T [N]    the last N events of thread T (5), and its next, as listed
object O        which bytes object O is, its version, who wrote and read that
writer FROM     which event wrote the block of this byte last, as T.P
readers FROM    which events have read what was written there last
way             the steps made so far, from the beginning on
order           a schedule by which a run comes here, as `record --schedule` takes it
help            these commands
quit            end
'''

def number(word, past=2**32):
    return int(word) if re.fullmatch(b'0|[1-9][0-9]*', word) and int(word) < past else None

class Debugger:
    def __init__(self, module, plan, log, order=()):
        self.log, self.passed, self.legs, self.breaks, self.instructions, self.watches = log, [World(module, plan, log.block)], [], [], [], []
        self.forms = {(b'step', 1): lambda n: self.step(n, 1), (b'step', 2): self.step, (b'continue', 0): self.run_on,
                      (b'event', 1): lambda n: self.event(n, 1), (b'event', 2): self.event, (b'reverse', 0): self.reverse, (b'goto', 2): self.goto,
                      (b'back', 0): lambda: self.back(1), (b'back', 1): self.back, (b'place', 2): self.place, (b'write', 2): self.write,
                      (b'delete', 0): self.delete, (b'threads', 0): self.threads, (b'where', 1): self.where, (b'around', 1): lambda n: self.around(n, 5), (b'around', 2): self.around, (b'bytes', 2): self.bytes,
                      (b'writer', 1): lambda at: self.who(at, 'written', 'w%d@%d/', 1), (b'readers', 1): lambda at: self.who(at, 'read', 'r%d@%d', 0),
                      (b'locals', 1): lambda n: self.locals(n, 0), (b'locals', 2): self.locals, (b'stack', 1): lambda n: self.stack(n, 0), (b'stack', 2): self.stack,
                      (b'waits', 1): self.waits, (b'finish', 1): self.finish, (b'again', 1): self.again, (b'object', 1): self.object, (b'writer!', 1): self.to_writer,
                      (b'way', 0): self.way, (b'order', 0): self.order, (b'help', 0): lambda: HELP}
        for n in order: self.go(n, 1, lambda did: True)
    world = property(lambda self: self.passed[-1])
    def answer(self, line):
        """What is answered to a line that is not `quit`."""
        if not line: return ''
        word, *numbers = line.split(b' ')
        if word == b'break' and len(line) <= 1024 and len(numbers) in (1, 2) and len(numbers[0]) <= 64: return self.break_in(numbers[0], *map(number, numbers[1:]))
        if word == b'watch' and len(line) <= 1024 and len(numbers) in (2, 3): return self.watch(*map(number, numbers[:2]), *(number(n, 2**64) for n in numbers[2:]))
        numbers = [number(n) for n in numbers]
        form = self.forms.get((word, len(numbers)))
        return UNKNOWN if len(line) > 1024 or form is None or None in numbers else form(*numbers)
    def talk(self, text):
        """What is answered to the lines that come."""
        answers = ''
        for line in text.split(b'\n'):
            if line == b'quit': break
            answers += self.answer(line)
        return answers
    def where(self, n):
        if n >= len(self.world.threads): return 'error: no such thread\n'
        return thread_line(self.world, self.world.threads[n], False, self.world.threads[n].out is None)
    def in_function(self, n, depth, shown):
        """What is shown of a function that a thread is in."""
        if n >= len(self.world.threads): return 'error: no such thread\n'
        t = self.world.threads[n]
        if t.out is not None or depth >= len(t.frames): return 'error: the thread is in no such function\n'
        return shown(t.frames[-1 - depth])
    def locals(self, n, depth):
        def shown(frame): return ''.join('local %d %s %d\n' % (i, kind, (s32 if kind == 'i32' else s64)(v)) for i, (kind, v) in enumerate(frame.locals)) or 'no locals\n'
        return self.in_function(n, depth, shown)
    def stack(self, n, depth):
        def shown(frame): return ''.join('operand %d %s\n' % (i, v if v < 65536 else hex(v)) for i, (_, v) in enumerate(reversed(frame.stack))) or 'no operands\n'
        return self.in_function(n, depth, shown)
    def waits(self, n):
        if n >= len(self.world.threads): return 'error: no such thread\n'
        made, end = len(self.world.threads[n].entries), self.log.ends.get(n)
        entry = self.log.entries.get((n, made))
        return self.next(n, made) + self.gate(entry, made, end)
    def gate(self, entry, made, end):
        if end is None or end is CLASH: return 'missing\n' if end is None else 'clash\n'
        if made >= end[1]: return 'done\n'
        if entry is None or entry is CLASH: return 'missing\n' if entry is None else 'clash\n'
        return ''.join(self.awaited(word) for word in entry[1] if not is_met(self.world, word)) or 'open\n'
    def awaited(self, word):
        """Which events ahead do what a touch waits for: they make the version that it found, or read it."""
        o, found = word[1:].split('@')
        version = int(found.split('/')[0])
        is_read = self.world.version.get(int(o), 0) == version
        sought = 'r%s@%d' % (o, version) if is_read else 'w%s@%d/' % (o, version - 1)
        events = ['%d.%d' % (t.n, place) for t in self.world.threads for end in [self.log.ends.get(t.n)] if end is not None and end is not CLASH
                  for place in range(len(t.entries), end[1]) for entry in [self.log.entries.get((t.n, place))] if entry is not None and entry is not CLASH
                  if any(it == sought if is_read else it.startswith(sought) for it in entry[1])]
        return 'object %s version %d %s by %s\n' % (o, version, 'read' if is_read else 'written', ' '.join(events) or 'nobody')
    def next(self, n, place):
        entry = self.log.entries.get((n, place))
        return '' if entry is None else 'next %d.%d %s\n' % (n, place, 'clash' if entry is CLASH else ' '.join([entry[0], *entry[1]]))
    def around(self, n, count):
        if n >= len(self.world.threads): return 'error: no such thread\n'
        made, text = len(self.world.threads[n].entries), ''
        for place in range(max(made - count, 0), made):
            text += self.next(n, place).removeprefix('next ')
        return text + self.next(n, made)
    def threads(self): return ''.join(self.where(n) for n in range(len(self.world.threads)))
    def step(self, n, most): return self.go(n, most, lambda did: True)
    def event(self, n, most): return self.go(n, most, lambda did: did == 'event')
    def finish(self, n):
        depth = self.depth(n)
        return self.go(n, 1, lambda did: self.depth(n) < depth)
    def depth(self, n):
        """In how many functions a thread is."""
        t = self.world.threads[n] if n < len(self.world.threads) else None
        return len(t.standing()) if t is not None and t.out is None else 0
    def go(self, n, most, counts):
        made, left, why = 0, most, ''
        while left and not why:
            did, after = turn(self.world, self.log, n)
            if did in ('local', 'event'): self.passed.append(after); made += 1; left -= counts(did)
            else: why = ' ' + did
        if made and self.legs and self.legs[-1][0] == n: self.legs[-1][1] += made
        elif made: self.legs.append([n, made])
        return 'stepped %d%s\n' % (made, why) + self.threads()
    def held(self, n, did, before, after):
        """The kind of the first break that holds behind a step."""
        for kind, first, second in self.breaks:
            if kind == 'place' and did == 'event' and (n, len(after.threads[n].entries)) == (first, second): return kind
            blocks = range(first // self.log.block, (first + second - 1) // self.log.block + 1) if kind == 'write' and second else ()
            changed = {(o - 1) // 2 for o, version in after.version.items() if o % 2 and version != before.version.get(o, 0)}
            if any(block in blocks for block in changed): return kind
        t = after.threads[n]
        if t.out is None and t.standing()[0] in self.instructions: return 'instruction'
        if any(self.seen(after, watch) != self.seen(self.begun, watch) for watch in self.watches): return 'watch'
    def seen(self, world, watch):
        """What is watched: the number that stands there, or whether it is the one that is asked for."""
        at, size, *one = watch
        there = int.from_bytes(world.mem[at:at + size], 'little') if at + size <= world.length else 0
        return there in one if one else there
    def rounds(self):
        """Turns of all threads, again and again; answers where that ends."""
        while True:
            begun = self.world
            for n in range(len(begun.threads)):
                before = self.world
                did, after = turn(before, self.log, n)
                if did == 'diverged': return 'stopped diverged'
                if did not in ('local', 'event'): continue
                self.passed.append(after)
                kind = self.held(n, did, before, after)
                if kind: return 'stopped ' + kind
            if self.world is begun: return 'finished' if all(stands(begun, t) == self.log.ends.get(t.n) for t in begun.threads) else 'stuck'
    def run(self):
        before, self.begun = len(self.passed), self.world
        stopped = self.rounds()
        if len(self.passed) > before: self.legs.append(['rounds', len(self.passed) - before])
        return stopped
    def run_on(self): return self.run() + '\n' + self.threads()
    def again(self, passes):
        stopped = self.run()
        while passes and stopped.startswith('stopped') and stopped != 'stopped diverged': passes -= 1; stopped = self.run()
        return stopped + '\n' + self.threads()
    def back(self, steps):
        steps = min(steps, len(self.passed) - 1)
        del self.passed[len(self.passed) - steps:]
        while steps:
            off = min(steps, self.legs[-1][1])
            self.legs[-1][1] -= off; steps -= off
            if not self.legs[-1][1]: self.legs.pop()
        return 'back\n' + self.threads()
    def reverse(self):
        self.begun = self.world
        for behind in range(len(self.passed) - 2, 0, -1):
            before, after = self.passed[behind - 1:behind + 1]
            n, = (t.n for t in after.threads if t.steps != before.threads[t.n].steps)
            did = 'event' if len(after.threads[n].entries) > len(before.threads[n].entries) else 'local'
            kind = self.held(n, did, before, after)
            if kind: return self.back(len(self.passed) - 1 - behind).replace('back', 'stopped ' + kind, 1)
        return self.back(len(self.passed)).replace('back', 'no break before', 1)
    def goto(self, n, place):
        kept = self.passed, self.legs, self.breaks, self.instructions, self.watches
        self.passed, self.breaks, self.instructions, self.watches = self.passed[:1], [('place', n, place)], [], []
        stopped = self.rounds()
        if stopped != 'stopped place':
            self.passed, self.legs, self.breaks, self.instructions, self.watches = kept
            return 'error: no such place: %s\n' % stopped
        self.legs, self.breaks, self.instructions, self.watches = [['rounds', len(self.passed) - 1]], *kept[2:]
        return stopped + '\n' + self.threads()
    def put_break(self, *one, at=None):
        (self.breaks if at is None else self.instructions).append(at or one)
        return 'break %d\n' % (len(self.breaks) + len(self.instructions) - 1)
    def watch(self, at, size, *one):
        if None in (at, *one) or size not in (1, 2, 4, 8): return UNKNOWN
        self.watches.append((at, size, *one))
        return 'watch %d\n' % (len(self.watches) - 1)
    def break_in(self, name, n=0):
        if n is None: return UNKNOWN
        funcs = self.world.m.funcs
        called = [f for f in range(len(funcs)) if name in (b'%d' % f, self.world.m.title(f).encode())]
        if not called: return 'error: no such function\n'
        if n >= len(funcs[called[0]][3]): return 'error: no such instruction\n'
        return self.put_break(at=(called[0], n))
    def place(self, n, place): return self.put_break('place', n, place)
    def write(self, start, length): return self.put_break('write', start, length)
    def delete(self):
        self.breaks, self.instructions, self.watches = [], [], []
        return 'no breaks\n'
    def bytes(self, start, length):
        return bytes_shown(self.world, start, length) if start + length <= self.world.length else 'error: the memory ends before\n'
    def events(self, o, form, more):
        """The events that touched the present version of an object so."""
        sought = form % (o, self.world.version.get(o, 0) - more)
        return ['%d.%d' % (t.n, place) for t in self.world.threads for place, (_, touched) in enumerate(t.entries)
                if any(it.startswith(sought) if more else it == sought for it in touched)]
    def told(self, o, word, form, more):
        return 'object %d version %d %s by %s\n' % (o, self.world.version.get(o, 0), word, ' '.join(self.events(o, form, more)) or 'nobody')
    def who(self, at, *how):
        return self.told(1 + 2 * (at // self.world.block), *how) if at < self.world.length else 'error: the memory ends before\n'
    def to_writer(self, at):
        if at >= self.world.length: return 'error: the memory ends before\n'
        events = self.events(1 + 2 * (at // self.world.block), 'w%d@%d/', 1)
        if not events: return 'error: nobody wrote it\n'
        n, place = map(int, events[0].split('.'))
        return self.goto(n, place + 1)
    def object(self, o):
        if o > 2 * (self.world.capacity // self.world.block): return 'error: no such object\n'
        size, first = self.world.block, (o - 1) // 2 * self.world.block
        which = '%s %d..%d' % (('waiters', 'bytes')[o % 2], first, first + size - 1) if o else 'length'
        return ('object %d %s version %d reads %d\n' % (o, which, self.world.version.get(o, 0), self.world.reads.get(o, 0))
                + self.told(o, 'written', 'w%d@%d/', 1) + self.told(o, 'read', 'r%d@%d', 0))
    def order(self):
        """The picks by which the steps were made, as a schedule."""
        picks = []
        for before, after in zip(self.passed, self.passed[1:]):
            n, = (t.n for t in after.threads if t.steps != before.threads[t.n].steps)
            there = len(before.threads[n].entries)
            goes = after.threads[n].entries[there:] == [] or after.threads[n].entries[there][0] != 'timedout'
            if picks and picks[-1][:2] == (n, goes): picks[-1] = (n, goes, picks[-1][2] + 1)
            else: picks.append((n, goes, 1))
        return schedule_text(picks) if len(self.passed) <= 1000001 else 'error: more than 1000000 steps\n'
    def way(self): return ''.join('%s steps %d\n' % (name if name == 'rounds' else 'thread %d' % name, steps) for name, steps in self.legs)

def talk(module, plan, lines, text, order=()):
    """The answers to what comes, where these pieces were gathered, behind turns of the threads of an order."""
    return Debugger(module, plan, Gathered(lines), order).talk(text)

# ---- lines that come

def lines(*words): return ''.join(line + '\n' for line in words).encode()

TALKS = {
    'opening': lines('threads', 'way', 'back', 'back 7', 'back 0', 'way', 'bytes 0 16'),
    'through': lines('continue', 'way', 'continue', 'way', 'bytes 0 4', 'back', 'way', 'back 4', 'way', 'step 1 2', 'way', 'continue', 'way',
                     'back 4294967295', 'way', 'back', 'continue'),
    'orders': lines('order', 'way', 'step 0 2', 'order', 'step 1 99', 'order', 'step 0', 'order', 'back', 'order', 'continue', 'order', 'way', 'back 3', 'order', 'continue', 'order',
                    'back 99', 'order', 'goto 1 1', 'order', 'order 1'),
    'alone': lines('step 0', 'step 0 2', 'step 1 3', 'step 0 4294967295', 'step 1 4294967295', 'step 0 99', 'way', 'bytes 0 4'),
    'nobody': lines('step 2', 'step 7 0', 'step 4294967295 4294967295', 'step 0 0', 'way'),
    'pair': lines('step 0 99', 'step 1 99', 'step 0 99', 'step 1 99', 'way', 'bytes 0 8', 'back 3', 'way', 'continue', 'back 99', 'step 1 3'),
    'crossed': lines(*['step %d 99' % n for n in range(5)], 'way', 'step 0 99', 'step 1 99', 'step 2 99', 'way', 'bytes 0 8', 'continue', 'way',
                     'back 3', 'way', 'continue', 'back 99', 'step 1 3'),
    'places': lines('place 0 1', 'place 1 2', 'place 1 1', 'place 1 0', 'place 7 1', 'continue', 'continue', 'continue', 'continue', 'way', 'back 3',
                    'way', 'continue', 'way', 'back 9', 'continue', 'delete', 'place 1 1', 'continue', 'way'),
    'writes': lines('write 3 1', 'write 0 0', 'continue', 'bytes 0 4', 'continue', 'bytes 0 4', 'back', 'bytes 0 4', 'continue', 'bytes 3 1', 'way',
                    'continue', 'continue', 'continue', 'way'),
    'watches': lines('watch 0 4', 'continue', 'bytes 0 4', 'way', 'continue', 'bytes 0 4', 'continue', 'reverse', 'bytes 0 4', 'way', 'reverse', 'reverse', 'way', 'delete',
                     'watch 0 4 1', 'continue', 'bytes 0 4', 'continue', 'bytes 0 4', 'continue', 'reverse', 'reverse', 'way', 'delete', 'back 99', 'watch 0 8 18446744073709551615',
                     'watch 3 1', 'watch 65534 2', 'watch 65535 2', 'watch 4294967295 8 0', 'continue', 'way', 'reverse', 'watch 2 2', 'write 0 4', 'continue', 'way', 'delete',
                     'back 99', 'break 0 2', 'watch 0 1', 'write 0 1', 'again 2', 'again 1', 'reverse', 'goto 1 1', 'way', 'again 9', 'delete', 'reverse', 'watch 0 1 0', 'back 99',
                     'continue', 'step 0', 'step 1', 'continue', 'again 1'),
    'elsewhere': lines('write 64 64', 'write 4294967295 4294967295', 'write 4294967295 0', 'place 0 9', 'continue', 'way'),
    'first': lines('place 0 1', 'write 0 1', 'continue', 'back 1', 'delete', 'write 0 1', 'place 0 1', 'continue', 'delete', 'write 0 4294967295',
                   'continue', 'way'),
    'legs': lines('step 1', 'step 1 1', 'step 0', 'step 1', 'way', 'back', 'way', 'step 0', 'way', 'write 0 4', 'continue', 'way', 'step 0', 'way',
                  'back 2', 'way', 'continue', 'way', 'back 3', 'way', 'step 1 9', 'way', 'step 7', 'step 0 0', 'way', 'back 99', 'way'),
    'rounds': lines('step 1', 'write 0 64', 'continue', 'back', 'continue', 'way', 'back 4', 'way', 'continue', 'continue', 'way', 'back 5', 'way',
                    'threads', 'delete', 'continue', 'way', 'back 12', 'way', 'threads'),
    'ranges': lines('step 0 3', *['bytes %d %d' % at for at in (
        (0, 0), (0, 1), (0, 16), (0, 17), (60, 8), (63, 2), (64, 64), (4092, 8), (65520, 16), (65520, 17), (65535, 1), (65536, 0), (65536, 1), (65537, 0),
        (131072, 0), (131073, 0), (4294967295, 0), (4294967295, 4294967295), (0, 4294967295))]),
    'grown': lines('bytes 65532 8', 'bytes 131072 0', 'step 0 1', 'step 0 1', 'bytes 65532 8', 'bytes 131068 4', 'bytes 131069 4', 'back', 'bytes 65532 8',
                   'write 65536 4', 'continue', 'bytes 65536 0', 'step 1 3', 'way'),
    'border': lines('write 64 1', 'continue', 'bytes 56 16', 'bytes 4092 8', 'back', 'bytes 63 2', 'delete', 'write 63 1', 'place 0 1', 'continue', 'continue',
                    'way'),
    'events': lines('event 0', 'event 0 2', 'event 1 3', 'event 0 0', 'event 0 4294967295', 'event 1 99', 'event 0', 'event 7 2', 'way', 'back 2', 'event 1', 'way',
                    'back 99', 'event 1', 'step 1', 'event 1', 'way'),
    'gotos': lines('goto 0 1', 'way', 'goto 1 2', 'way', 'back', 'goto 1 1', 'event 0', 'goto 0 0', 'goto 0 99', 'goto 7 1', 'way', 'threads', 'place 0 2', 'goto 0 1',
                   'continue', 'way', 'goto 1 4294967295', 'delete', 'goto 0 1', 'continue', 'way'),
    'reverse': lines('reverse', 'write 0 4', 'reverse', 'continue', 'continue', 'reverse', 'way', 'continue', 'reverse', 'reverse', 'reverse', 'way', 'delete', 'place 1 1',
                     'continue', 'continue', 'reverse', 'reverse', 'way', 'step 0 2', 'step 1 9', 'write 0 4', 'event 0', 'reverse', 'reverse', 'way', 'delete', 'reverse'),
    'who': lines('writer 0', 'readers 0', 'event 0 2', 'writer 0', 'readers 0', 'readers 64', 'event 1 2', 'writer 3', 'readers 63', 'continue', 'writer 0', 'readers 0',
                 'writer 64', 'writer 65535', 'writer 65536', 'readers 65536', 'readers 4294967295', 'back 4', 'writer 0', 'readers 0'),
    'around': lines('around 0', 'around 1 0', 'around 2', 'event 0', 'around 0', 'around 0 1', 'around 0 0', 'continue', 'around 0', 'around 1 1', 'around 1 4294967295',
                    'around 3', 'around 4294967295 1'),
    'finish': lines('finish 0', 'way', 'threads', 'back 99', 'step 0 2', 'finish 0', 'finish 0', 'finish 0', 'finish 1', 'finish 1', 'finish 2', 'finish 7', 'way', 'back 2',
                    'finish 0', 'way'),
    'again': lines('again 0', 'again 1', 'back 99', 'write 0 64', 'place 0 1', 'again 0', 'again 1', 'way', 'again 4294967295', 'way', 'back 4', 'again 1', 'again 2', 'way',
                   'delete', 'again 3', 'way'),
    'objects': lines('object 0', 'object 1', 'object 2', 'event 0 2', 'object 1', 'object 3', 'event 1 2', 'object 1', 'object 2', 'continue', 'object 1', 'object 2', 'object 0',
                     'object 2048', 'object 2049', 'object 4096', 'object 8193', 'object 4294967295'),
    'writers': lines('writer! 0', 'writer! 65536', 'writer! 4294967295', 'continue', 'writer 0', 'writer! 0', 'way', 'writer! 3', 'way', 'writer! 64', 'way', 'back', 'writer! 0', 'way'),
    'functions': lines('break 0', 'break 1', 'break 1 2', 'break 0 1', 'break 9', 'break 0 99', 'break nobody', 'break nobody 1', 'continue', 'continue', 'way', 'again 2', 'way',
                       'reverse', 'reverse', 'way', 'place 0 1', 'back 99', 'again 1', 'continue', 'way', 'delete', 'continue', 'way', 'reverse'),
    'named': lines('break first', 'break divide 2', 'break gr\u00f6\u00dfe::of 1', 'break past', 'break 10', 'break 12 1', 'break atomic wait', 'break two\nlines', 'break ', 'break main 1',
                   'continue', 'continue', 'again 3', 'finish 0', 'way', 'reverse', 'way', 'continue', 'finish 1', 'writer! 64', 'object 3'),
    'asked': lines('where 0', 'where 1', 'where 2', 'where 16', 'where 4294967295', 'continue', 'where 1'),
    'standing': lines('step 2 5', 'step 2 9', 'back', 'way', 'continue', 'back', 'way', 'step 0 99'),
    'deep': lines('step 0 255', 'step 0 9', 'step 0', 'back 255', 'step 1 9', 'way'),
    'called': lines('locals 0', 'stack 0', 'locals 1', 'stack 1', 'step 1 3', 'stack 1', 'locals 1', 'step 1', 'locals 1', 'locals 1 0', 'stack 1', 'locals 1 1', 'stack 1 1',
                    'locals 1 2', 'stack 1 2', 'step 1 2', 'locals 1', 'step 1 2', 'stack 1', 'stack 1 1', 'step 1 2', 'locals 1', 'stack 1', 'back', 'stack 1', 'step 1 2', 'locals 1',
                    'stack 1', 'step 1 9', 'locals 1', 'stack 1', 'locals 2', 'stack 2', 'locals 4294967295 4294967295', 'locals 0 4294967295', 'stack 0 4294967295', 'step 0 2',
                    'stack 0', 'step 0 99', 'locals 0', 'waits 0', 'back 99', 'locals 1'),
    'waits': lines('waits 0', 'waits 1', 'waits 2', 'step 1 99', 'waits 1', 'step 0 99', 'waits 0', 'waits 1', 'step 1 99', 'waits 1', 'waits 0', 'continue', 'waits 0',
                   'waits 1', 'waits 4294967295', 'back 3', 'waits 0', 'waits 1'),
    'help': lines('help', 'help ', 'way'),
    'bad': lines(
        ' ', '  ', 'step', 'step ', ' step 0', 'step  0', 'step 0 ', 'step 0 1 ', 'step 0 1 2', 'step 00', 'step 01', 'step 0 01', 'step -1', 'step -0', 'step 0 -1',
        'step +1', 'step x', 'step 0x1', 'step 1.0', 'step 4294967296', 'step 0 4294967296', 'step 0 18446744073709551617', 'Step 0', 'steps 0', 'step\t0',
        'continue 1', 'continue ', 'cont', 'back ', 'back 00', 'back -1', 'back 1 2', 'back 4294967296', 'place', 'place 0', 'place 0 1 2', 'place 0.1', 'place a 0',
        'place 0 4294967296', 'write', 'write 0', 'write 0+4', 'write 0 4 1', 'write 4294967296 0', 'delete 0', 'threads 0', 'threads\r', '\r', 'bytes', 'bytes 0',
        'bytes 0 4 4', 'bytes 0x0 4', 'bytes 0 04', 'way 1', 'help me', 'help\r', 'event', 'event x', 'event 0 1 2', 'event 0 01', 'reverse 1', 'goto', 'goto 0', 'goto 0.1', 'goto 0 1 2', 'where', 'where 0 1', 'where x', 'locals', 'locals x', 'locals 0 01', 'locals 0 1 2', 'stack', 'stack -1', 'stack 0 x', 'stack 0 1 2', 'waits', 'waits x', 'waits 0 1', 'around', 'around x', 'around 0 1 2',
        'writer', 'writer 0 4', 'writer 0x0', 'readers', 'readers 4294967296', 'finish', 'finish x', 'finish 0 1', 'again', 'again -1', 'again 1 2', 'object', 'object 01', 'object 1 2', 'writer!', 'writer! 0 1', 'writer ! 0', 'break', 'break 0 x', 'break 0 1 2',
        'watch', 'watch 0', 'watch 0 0', 'watch 0 3', 'watch 0 16', 'watch 0 4 -1', 'watch 0 4 18446744073709551616', 'watch 0 4 1 1', 'watch x 4', 'watch 4294967296 4', 'watch 0 04', 'break  0', 'break 0 01', 'break 0 4294967296', 'break ' + 64 * 'x', 'break ' + 65 * 'x', 'break ' + 65 * 'x' + ' 1', 'quit 0', 'quit\r', ' quit', 'quit ', 'Quit', '0', '# way', 'way;way')
           + b'\xff\xfe\nstep 0\0\nthr\xc3\xa9ads\nthreads\nway\nwrite 0 4',
    'long': b'x' * 1024 + b'\n' + b'x' * 1025 + b'\nway' + b' ' * 1021 + b'\n' + b'x' * 1024 + b'threads\nthreads',
    'blank': b'\n\nthreads\n\n\nstep 1\n\n',
    'unended': b'step 0\nthreads',
    'last': b'step 1 2\nquit',
    'behind': b'step 1 2\n\nquit\nthreads\nstep 0\nquit\n',
    'only': b'\n',
}

def drawn_talk(words, threads, count):
    """Lines that numbers draw: `words` answers a number below another."""
    def some(most): return (0, 1, 2, 3, words(most + 1), words(most + 1))[words(6)]
    def line():
        kind, n = words(32), words(threads + 1)
        if kind > 28: return ('waits %d' % n, 'locals %d' % n, 'locals %d %d' % (n, some(3)), 'stack %d' % n, 'stack %d %d' % (n, some(3)))[words(5)]
        if kind == 23: return 'finish %d' % n
        if kind == 24: return 'again %d' % some(3)
        if kind == 25: return 'object %d' % some(8)
        if kind == 26: return 'writer! %d' % (0, 63, 64, some(200))[words(4)]
        if kind > 26: return 'break %d' % some(3) + (' %d' % some(6) if words(2) else '')
        if kind == 16: return 'event %d' % n + (' %d' % some(4) if words(3) else '')
        if kind == 17: return 'reverse'
        if kind == 18: return 'goto %d %d' % (n, some(4))
        if kind == 19: return 'where %d' % n
        if kind == 22: return 'around %d' % n + (' %d' % some(4) if words(3) else '')
        if kind > 19: return '%s %d' % (('writer', 'readers')[kind - 20], (0, 63, 64, some(200))[words(4)])
        if kind < 5: return 'step %d' % n + (' %d' % some(9) if words(3) else '')
        if kind < 8: return 'continue'
        if kind < 11: return 'back' + (' %d' % some(12) if words(3) else '')
        if kind == 11: return 'place %d %d' % (n, some(4))
        if kind == 12 and words(2): return 'watch %d %d' % ((0, 0, 3, 64)[words(4)], (1, 2, 4, 8)[words(4)]) + (' %d' % some(3) if words(3) == 0 else '')
        if kind == 12: return 'write %d %d' % ((0, 4, 60, 64)[words(4)], (0, 1, 4, 8)[words(4)])
        if kind == 13: return ('delete', 'threads', 'steps', 'bytes 0 4')[words(4)]
        return ('way', 'bytes %d %d' % (some(70), some(8)))[kind - 14]
    return lines(*[line() for _ in range(count)], 'way', 'order')
