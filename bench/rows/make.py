"""Writes the commands of crates/worked_rows, the files that they read, and what they must write: by the model, for the
recordings of profile 1 by what was recorded apart, and for the hunt by what is kept with it and in `queue`."""
import os, struct, sys
from model import Module, Words, World, digest, leb, schedule_text, shrunk, sleb
from charts import chart, EMPTY
from adapters import BEFORE, BEHIND, EXCHANGES, answers, disassembly, framed, launch, requests
from debugs import Debugger, Gathered, TALKS, drawn_talk, talk
from hints import checked
from objects import by_object
from views import stop, trace, view

TARGET = sys.argv[1]
DATA = os.path.join(TARGET, 'data')
os.makedirs(DATA, exist_ok=True)
script, expected = [], []

kept = {}
def keep(name, content):
    """A file, of one content for all commands."""
    content = content if isinstance(content, bytes) else content.encode()
    assert kept.setdefault(name, content) == content, name
    with open(os.path.join(DATA, name), 'wb') as file: file.write(content)
    return name

def command(line, output='', errors='', status=0):
    script.append(line)
    expected.append('$ wreplay ' + line + '\n' + output + errors + ('exit %d\n' % status if status else ''))

# the words of reasons are open, so no model makes them: they are what the program says, read by hand
with open(os.path.join(os.path.dirname(os.path.abspath(__file__)), 'reasons')) as file:
    REASONS = dict(line.rstrip('\n').split('\t') for line in file)

def refused(line, text):
    """A command that is refused, and the same asked for the reason."""
    command(line, '', 'refused %s\n' % text, 1)
    front, mark, name = line.partition(' < ')
    asked = front + ' --why' + mark + name
    command(asked, '', 'refused %s\n%s\n' % (text, REASONS.get(asked, '?')), 1)

def gathered(name, listing):
    """Gathers pieces, lists them by thread and by object, and draws them."""
    command('gather < %s.pieces' % name, listing)
    command('gather --by-object < %s.pieces' % name, by_object(listing))
    command('gather --by-object --shared < %s.pieces' % name, by_object(listing, shared=True))
    command('chart < %s.pieces' % name, chart(listing))

# ---- one recorded run, its pieces, its listing and its replays

def run_of(name, module, plan, schedule, block=64, steps=1000000):
    world = World(module, plan, block)
    world.run(schedule, steps)
    return world

# of each file of pieces the module and the plan, and its lines
logs = {}
def recorded(name, module_file, module, plan_file, plan, schedule, block=64, steps=None, size=None, orders=('',), run=None):
    """Records, reports, gathers and replays one schedule; answers the model's run."""
    keep(name + '.schedule', schedule)
    world = run_of(name, module, plan, schedule, block, 1000000 if steps is None else steps)
    d, number = digest(module, plan), 0 if run is None else run
    options = ' --schedule %s.schedule' % name
    if run is not None: options += ' --run %d' % run
    if steps is not None: options += ' --steps %d' % steps
    if block != 64: options += ' --block %d' % block
    files = '%s %s' % (module_file, plan_file)
    command('record %s%s --report' % (files, options), world.report())
    cut = '' if size is None else ' --size %d' % size
    script.append('record %s%s%s > %s.pieces' % (files, options, cut, name))
    expected.append('$ wreplay ' + script[-1] + '\n')
    gathered(name, world.listing(d, number))
    for order in orders:
        command('replay %s %s.pieces%s' % (files, name, ' --order ' + order if order else ''), world.report())
    command('replay %s %s.pieces --threads' % (files, name), world.report())
    logs[name] = module_file, module, plan_file, plan, world.lines(d, number, 4096)
    entries = {(t.n, p): e for t in world.threads for p, e in enumerate(t.entries)}
    ends = {t.n: (t.steps, len(t.entries), world.outcome(t)) for t in world.threads}
    for n, order in enumerate(orders):
        turns = [int(n) for n in order.split(',')] if order else []
        words = (' --order ' + order if order else '') + (' --offsets' if n % 2 else '')
        command('trace %s %s.pieces%s' % (files, name, words), trace(World(module, plan, block), entries, ends, turns, offsets=n % 2 == 1))
    return world

# ---- modules and plans

def plan_of(*threads): return ('wreplay plan 1\n' + ''.join('thread %s\n' % t for t in threads)).encode()
add = [('i32.const', 0), ('i32.const', 1), 'i32.atomic.rmw.add']
COUNTER = Module([('w', [], 'i32', add + ['drop'] + add + ['end'])])
TWO = plan_of('w', 'w')
keep('counter.wasm', COUNTER.bytes); keep('counter.plan', TWO)
def load(a): return [('i32.const', a), 'i32.load', 'end']
def wait(a, expected_value, timeout): return [('i32.const', a), ('i32.const', expected_value), ('i64.const', timeout), 'wait32', 'end']

ORDERS = ('', '1,1,0', '0,1,0,1,0,1,7')

# two threads add 1 twice: four schedules
worlds = {}
for name, schedule in (('first', b'go 0 8\ngo 1 8\n'), ('second', b'go 1 8\ngo 0 8\n'), ('third', b'go 0 3\ngo 1 8\ngo 0 5\n'), ('fourth', b'go 0 3\ngo 1 3\ngo 0 5\ngo 1 5\n')):
    worlds[name] = recorded(name, 'counter.wasm', COUNTER, 'counter.plan', TWO, schedule, size=1 if name == 'first' else 3, orders=ORDERS, run=1)
FIRST, D = worlds['first'], digest(COUNTER, TWO)
command('record counter.wasm counter.plan --schedule first.schedule --size 1', FIRST.lines(D, 0, 1))
command('record counter.wasm counter.plan --schedule first.schedule --size 3', FIRST.lines(D, 0, 3))
command('record counter.wasm counter.plan --schedule first.schedule --timeouts now', FIRST.lines(D, 0, 4096))
recorded('bounded', 'counter.wasm', COUNTER, 'counter.plan', TWO, b'go 0 8\ngo 1 8\n', steps=3)
recorded('nothing', 'counter.wasm', COUNTER, 'counter.plan', TWO, b'')
recorded('over', 'counter.wasm', COUNTER, 'counter.plan', TWO, b'out 0\ngo 5 4\ngo 0 8\ngo 0 3\ngo 1 8\n')

# runs that numbers draw
def drawn(module_file, module, plan_file, plan, number, timeouts=False, steps=None):
    """Records, reports, gathers and replays the run that a number draws."""
    world = World(module, plan); world.draw(number, timeouts, 1000000 if steps is None else steps)
    options = ' --random --run %d' % number + (' --timeouts now' if timeouts else '') + (' --steps %d' % steps if steps is not None else '')
    files = '%s %s' % (module_file, plan_file)
    command('record %s%s --report' % (files, options), world.report())
    name = 'drawn_%s_%d%s' % (module_file[:-5], number, '' if steps is None else '_%d' % steps)
    script.append('record %s%s > %s.pieces' % (files, options, name)); expected.append('$ wreplay ' + script[-1] + '\n')
    command('gather < %s.pieces' % name, world.listing(digest(module, plan), number))
    command('replay %s %s.pieces --order 1,0' % (files, name), world.report())
for number in (0, 1, 2, 3, 4, 5, 6, 7, 2 ** 64 - 1): drawn('counter.wasm', COUNTER, 'counter.plan', TWO, number)
drawn('counter.wasm', COUNTER, 'counter.plan', TWO, 7, steps=3)

# hunts: the least number whose run is caught, or a line for each run
def quote(text): return "'%s'" % text if ' ' in text else text
def hunt_words(files, until, unless, more): return 'hunt %s' % files + ''.join(" --until " + quote(t) for t in until) + ''.join(' --unless ' + quote(t) for t in unless) + more
def hunted(module_file, module, plan_file, plan, until=(), unless=(), first=0, runs=1000, timeouts=False, size=4096, jobs=(1, 2, 4), quiet=False):
    """Hunts with some numbers of jobs: each writes the same."""
    more = (' --from %d' % first if first else '') + (' --runs %d' % runs if runs != 1000 else '') + (' --timeouts now' if timeouts else '') + (' --size %d' % size if size != 4096 else '') + (' --quiet' if quiet else '')
    words = hunt_words('%s %s' % (module_file, plan_file), until, unless, more)
    def is_sign(line, texts): return any(line.startswith(t) for t in texts) if until or unless else line.split(' ')[2:3] in (['trap'], ['waiting'])
    def signs_of(world): return [line for line in world.report().splitlines() if is_sign(line, until)]
    def is_caught(world): return bool(signs_of(world) or unless and not any(is_sign(line, unless) for line in world.report().splitlines()))
    def told_of(world, number): return 'caught %d\n' % number + ''.join(line + '\n' for line in signs_of(world))
    for number in range(first, first + runs):
        world = World(module, plan); world.draw(number, timeouts)
        if is_caught(world):
            told = told_of(world, number)
            for n in jobs: command(words + ' --jobs %d' % n, world.lines(digest(module, plan), number, size), told)
            made_small(words, module, plan, world, number, size, is_caught, told_of)
            return
    for n in jobs: command(words + ' --jobs %d' % n, '', 'refused 71 NotCaught\n', 1)
    command(words + ' --why', '', 'refused 71 NotCaught\n--from and --runs: the report of none of these runs is one that is caught\n', 1)
def made_small(words, module, plan, world, number, size, is_caught, told_of):
    """The schedule of a run that is caught, as it is drawn and made small, and the pieces of what it is made to."""
    def rests(other): return all(other.outcome(t) != 'running' for t in other.threads)
    def comes(stretches):
        other = World(module, plan).tries(stretches)
        return (rests(other) or not rests(world)) and is_caught(other)
    small = shrunk(world.drawn, comes)
    other = World(module, plan).tries(small)
    command(words + ' --print schedule', schedule_text(world.drawn), told_of(world, number))
    command(words + ' --shrink --print schedule', schedule_text(small), told_of(other, number))
    command(words + ' --shrink', other.lines(digest(module, plan), number, size), told_of(other, number))
def hunted_by_threads(module_file, module, plan_file, plan, schedule, number, words, told):
    """One thread, whose runs by threads are all one run."""
    world = run_of('', module, plan, schedule)
    command('hunt %s %s --threads%s' % (module_file, keep(plan_file, plan), words), world.lines(digest(module, plan), number, 4096), 'caught %d\n' % number + told)
def run_lines(module_file, module, plan_file, plan, first, runs, timeouts=False, jobs=(1, 3), quiet=False):
    """A line for each run."""
    lines = ''
    for number in range(first, first + runs):
        world = World(module, plan); world.draw(number, timeouts)
        lines += '%d %s\n' % (number, ', '.join(world.outcome(t) for t in world.threads))
    for n in jobs: command('hunt %s %s --list --from %d --runs %d%s%s --jobs %d' % (module_file, plan_file, first, runs, ' --timeouts now' if timeouts else '', ' --quiet' if quiet else '', n), lines)
HUNTED = ('counter.wasm', COUNTER, 'counter.plan', TWO)
hunted(*HUNTED, until=('thread 1 i32 2', 'thread 0 i32 2'), size=1)
hunted(*HUNTED, until=('thread 0 i32 3',), first=5)
hunted(*HUNTED, unless=('thread 1 i32 3', 'thread 0 i32 2'), runs=30)
hunted(*HUNTED, until=('00000000 05',), unless=('pages 1',), runs=9)
hunted(*HUNTED, runs=7, first=2 ** 64 - 8)
hunted_by_threads('counter.wasm', COUNTER, 'single.plan', plan_of('w'), b'go 0 8\n', 3, " --until 'thread 0 i32 1' --from 3", 'thread 0 i32 1\n')
command("hunt counter.wasm single.plan --threads --until 'thread 0 i32 2' --runs 5", '', 'refused 71 NotCaught\n', 1)
run_lines(*HUNTED, 0, 12); run_lines(*HUNTED, 2 ** 64 - 4, 3)
hunted(*HUNTED, until=('thread 0 i32 3',), first=5, jobs=(2,), quiet=True)
hunted(*HUNTED, runs=7, jobs=(3,), quiet=True)
hunted_by_threads('counter.wasm', COUNTER, 'single.plan', plan_of('w'), b'go 0 8\n', 3, " --quiet --until 'thread 0 i32 1' --from 3", 'thread 0 i32 1\n')
run_lines(*HUNTED, 2, 9, jobs=(2,), quiet=True)

# two readers and a writer
SHARED = Module([('r', [], 'i32', load(0)), ('s', [], None, [('i32.const', 0), ('i32.const', 7), 'i32.store', 'end'])])
keep('readers.wasm', SHARED.bytes); READERS = plan_of('r', 'r', 's'); keep('readers.plan', READERS)
recorded('readers', 'readers.wasm', SHARED, 'readers.plan', READERS, b'go 0 3\ngo 1 3\ngo 2 4\n', orders=('', '2,2,2', '2,1,0,2,1,0,2,1,0'))

# a store over the border of two blocks, and one past the memory
def store64(a): return [('i32.const', a), ('i64.const', 0x0807060504030201), 'i64.store', 'end']
BORDER = Module([('f', [], None, store64(60)), ('g', [], None, store64(65532)), ('h', [], None, store64(4092))])
keep('border.wasm', BORDER.bytes)
for name, f in (('border', 'f'), ('past', 'g'), ('page', 'h')):
    keep(name + '.plan', plan_of(f))
    for block in (64, 4096):
        recorded('%s%d' % (name, block), 'border.wasm', BORDER, name + '.plan', plan_of(f), b'go 0 9\n', block=block)

# a memory that grows while another thread reads past its first page
GROW = Module([('g', [], 'i32', [('i32.const', 1), 'memory.grow', 'end']), ('r', [], 'i32', load(65536))], (1, 2, True))
keep('grow.wasm', GROW.bytes); GROWS = plan_of('g', 'r'); keep('grow.plan', GROWS)
recorded('reader', 'grow.wasm', GROW, 'grow.plan', GROWS, b'go 1 3\ngo 0 3\n', orders=('', '0,0,0', '1,1'))
recorded('grower', 'grow.wasm', GROW, 'grow.plan', GROWS, b'go 0 3\ngo 1 3\n', orders=('', '1,1,1', '0,1,0,1'))
def grow_by(n): return [('i32.const', n), 'memory.grow']
FAR = Module([('f', [], 'i32', grow_by(15) + ['drop'] + grow_by(1) + ['drop'] + grow_by(84) + ['drop'] + grow_by(83) + ['end']),
              ('s', [], 'i32', [('i32.const', 4)] + grow_by(15) + ['i32.store', ('i32.const', 8)] + grow_by(300) + ['i32.store', 'memory.size', 'end'])], (1, 100, True))
keep('far.wasm', FAR.bytes)
for f in 'fs':
    keep('far%s.plan' % f, plan_of(f)); recorded('far' + f, 'far.wasm', FAR, 'far%s.plan' % f, plan_of(f), b'go 0 99\n')

# waiting: another value, for ever, woken in turn, out of time
WAITS = Module([('other', [], 'i32', wait(0, 5, -1)), ('ever', [], 'i32', wait(0, 0, -1))])
keep('waits.wasm', WAITS.bytes)
for f in ('other', 'ever'):
    keep(f + '.plan', plan_of(f)); recorded(f, 'waits.wasm', WAITS, f + '.plan', plan_of(f), b'go 0 9\n', orders=('', '0,0,0', '3'))
notify = lambda n: [('i32.const', 0), ('i32.const', n), 'notify']
FIVE = Module([('f', [], 'i32', wait(0, 0, -1)), ('g', [], 'i32', wait(4, 0, -1)), ('n', [], 'i32', notify(2) + [('i32.const', 10), 'i32.mul'] + notify(-1) + ['i32.add', 'end'])])
keep('five.wasm', FIVE.bytes); FIVES = plan_of('f', 'f', 'f', 'g', 'n'); keep('five.plan', FIVES)
FIVE_LINES = b'go 2 4\ngo 0 4\ngo 1 4\ngo 3 4\ngo 4 3\ngo 1 1\ngo 0 2\ngo 2 2\ngo 4 7\ngo 1 2\ngo 3 1\n'
recorded('five', 'five.wasm', FIVE, 'five.plan', FIVES, FIVE_LINES, orders=('', '4,4,4,4,4,4,4,4', '4,3,2,1,0,4,3,2,1,0'))
for name, timeout in (('limited', 1000), ('endless', -1)):
    m = Module([('f', [], 'i32', wait(0, 0, timeout)), ('n', [], 'i32', notify(1) + ['end'])])
    keep(name + '.wasm', m.bytes); keep(name + '.plan', plan_of('f', 'n'))
    recorded(name + '1', name + '.wasm', m, name + '.plan', plan_of('f', 'n'), b'go 0 4\nout 0\ngo 1 4\ngo 0 1\n', orders=('', '1,1,1,1', '0,1,0,1'))
    recorded(name + '2', name + '.wasm', m, name + '.plan', plan_of('f', 'n'), b'go 0 4\ngo 1 4\nout 0\ngo 0 2\n', orders=('', '1,1,1,1', '0,1,0,1'))

hunted('five.wasm', FIVE, 'five.plan', FIVES, runs=40)
hunted('five.wasm', FIVE, 'five.plan', FIVES, until=('thread 4 i32 1',), runs=40)
for number in range(4): drawn('five.wasm', FIVE, 'five.plan', FIVES, number)
LIMITED = Module([('f', [], 'i32', wait(0, 0, 1000)), ('n', [], 'i32', notify(1) + ['end'])])
hunted('limited.wasm', LIMITED, 'limited.plan', plan_of('f', 'n'), until=('thread 0 i32 2',), timeouts=True)
hunted('limited.wasm', LIMITED, 'limited.plan', plan_of('f', 'n'), until=('thread 0 i32 2',), runs=20)
hunted_by_threads('limited.wasm', LIMITED, 'sleeper.plan', plan_of('f'), b'go 0 9\n', 0, '', 'thread 0 waiting\n')
hunted_by_threads('limited.wasm', LIMITED, 'sleeper.plan', plan_of('f'), b'go 0 9\nout 0\ngo 0 9\n', 0, " --timeouts now --until 'thread 0 i32'", 'thread 0 i32 2\n')
run_lines('limited.wasm', LIMITED, 'limited.plan', plan_of('f', 'n'), 0, 6, True)
for number in range(6): drawn('limited.wasm', LIMITED, 'limited.plan', plan_of('f', 'n'), number, number % 2 == 1)

# traps, and accesses that are narrower than their operands
TRAPS = Module([('d', [], 'i32', [('i32.const', -2147483648), ('i32.const', -1), 'i32.div_s', 'end']), ('u', [], 'i32', [('i32.const', 1), 'i32.atomic.load', 'end'])])
keep('traps.wasm', TRAPS.bytes); keep('traps.plan', plan_of('d', 'u'))
recorded('traps', 'traps.wasm', TRAPS, 'traps.plan', plan_of('d', 'u'), b'go 0 9\ngo 1 9\n', orders=ORDERS)
ALONE = Module([('f', [], 'i32', wait(0, 0, -1))], (1, 1, False))
keep('alone.wasm', ALONE.bytes); keep('alone.plan', plan_of('f')); keep('alone2.plan', plan_of('f', 'f'))
recorded('alone', 'alone.wasm', ALONE, 'alone.plan', plan_of('f'), b'go 0 9\n')
def exchange(e): return [('i32.const', 0), ('i32.const', e), ('i32.const', 9), 'i32.atomic.rmw8.cmpxchg_u', 'end']
EXCHANGE = Module([('f', [], 'i32', exchange(5)), ('g', [], 'i32', exchange(261))], data=((0, b'\5'),))
keep('exchange.wasm', EXCHANGE.bytes)
for f in 'fg':
    keep('exchange%s.plan' % f, plan_of(f)); recorded('exchange' + f, 'exchange.wasm', EXCHANGE, 'exchange%s.plan' % f, plan_of(f), b'go 0 9\n')
SIGNS = Module([('f', ['i32'], 'i32', [('local.get', 0), 'i32.extend8_s', 'end']), ('g', ['i64'], 'i64', [('local.get', 0), 'i64.extend32_s', 'end'])])
keep('signs.wasm', SIGNS.bytes); SIGNED = plan_of('f 128', 'f 383', 'f -1', 'g 2147483648', 'g -9223372036854775808'); keep('signs.plan', SIGNED)
recorded('signs', 'signs.wasm', SIGNS, 'signs.plan', SIGNED, b'go 0 9\ngo 1 9\ngo 2 9\ngo 3 9\ngo 4 9\n')

# ---- refusals, in the order in which the files are read

keep('bad.wasm', COUNTER.bytes[:-1]); keep('bad.plan', b'wreplay plan 1\nthread w 1\n'); keep('zeros.schedule', b'go 0 0\n'); keep('empty', b'')
keep('late.schedule', b'go 0 8\nout 1\ngo 16 1\n')
refused('record bad.wasm bad.plan --schedule zeros.schedule', '1 Refused 33')
refused('record counter.wasm bad.plan --schedule zeros.schedule', '15 WrongArguments 2')
refused('record counter.wasm counter.plan --schedule zeros.schedule', '18 BadSchedule 1')
refused('record counter.wasm counter.plan --schedule late.schedule', '18 BadSchedule 3')
refused('record counter.wasm counter.plan --schedule missing.schedule', '44 SourceFailed')
refused('record missing.wasm missing.plan --schedule zeros.schedule', '44 SourceFailed')
refused('record alone.wasm alone2.plan --schedule first.schedule', '16 NotShared')
for size, text in ((0, '31 Empty'), (4097, '32 TooMany')):
    refused('record counter.wasm counter.plan --schedule first.schedule --size %d' % size, text)
    refused('record counter.wasm counter.plan --schedule first.schedule --size %d --report' % size, text)
refused('replay bad.wasm bad.plan absent.pieces', '1 Refused 33')
refused('replay counter.wasm bad.plan absent.pieces', '15 WrongArguments 2')
refused('replay counter.wasm counter.plan absent.pieces', '44 SourceFailed')
refused('replay readers.wasm readers.plan first.pieces', '51 OtherRun')
refused('replay counter.wasm counter.plan empty', '53 Missing 0 0')
refused('replay counter.wasm counter.plan empty --threads', '53 Missing 0 0')
refused('replay readers.wasm readers.plan first.pieces --threads', '51 OtherRun')
refused('replay counter.wasm counter.plan first.schedule', '43 BadLine 1')

# ---- logs with one change: each a piece more, or a thread's whole log in another form

def piece(world, d, run, thread, first, entries, end=None, steps=None, outcome=None, profile=True):
    b = (b'IRP\2' if profile else b'IRP\1') + d + struct.pack('<Q', run) + (bytes([world.block.bit_length() - 1]) if profile else b'')
    b += bytes([thread]) + struct.pack('<IHB', first, len(entries), end is not None)
    for kind, found in entries:
        b += bytes([{'access': 0, 'woken': 1, 'timedout': 2}[kind], len(found)])
        for x in found:
            o, rest = x[1:].split('@')
            b += struct.pack('<I', int(o)) + (b'\0' if x[0] == 'r' else b'\1') + b''.join(struct.pack('<Q', int(n)) for n in rest.split('/'))
    if end is not None: b += struct.pack('<II', *end) + outcome
    return b.hex() + '\n'
w = [('access', ['w1@%d/0' % v]) for v in range(4)]
ONE, THREE = b'\3\1\0\0\0', b'\3\3\0\0\0'
def thread0(entries=w[:2], end=(8, 2), outcome=ONE): return piece(FIRST, D, 0, 0, 0, entries, end, None, outcome)
def thread1(entries=w[2:], end=(8, 2), outcome=THREE): return piece(FIRST, D, 0, 1, 0, entries, end, None, outcome)
assert thread0() + thread1() == FIRST.lines(D, 0, 4096)
def changed(name, text, answer, order=''):
    keep(name + '.pieces', text); refused('replay counter.wasm counter.plan %s.pieces%s' % (name, order), answer)
    if not order: refused('replay counter.wasm counter.plan %s.pieces --threads' % name, answer)
changed('missing', thread0() + piece(FIRST, D, 0, 1, 0, w[2:3]), '53 Missing 1 0')
changed('hole', thread0() + piece(FIRST, D, 0, 1, 0, w[2:3]) + piece(FIRST, D, 0, 1, 2, [], (8, 2), None, THREE), '53 Missing 1 1')
changed('clash', thread0() + thread1() + piece(FIRST, D, 0, 0, 0, [('access', ['w1@5/0'])]), '52 Clash 0 0')
changed('version', thread0() + thread1([w[2], ('access', ['w1@9/0'])]), '57 Stuck')
changed('object', thread0() + thread1([w[2], ('access', ['w3@0/0'])]), '55 Diverged 1 1')
changed('kind', thread0([('woken', ['w1@0/0']), w[1]]) + thread1(), '55 Diverged 0 0')
changed('longer', thread0(end=(9, 2)) + thread1(), '55 Diverged 0 2')
changed('shorter', thread0(end=(7, 2)) + thread1(), '55 Diverged 0 2')
changed('noend', thread0() + piece(FIRST, D, 0, 1, 0, w[2:]), '53 Missing 1 0')
changed('twoends', thread0() + thread0(outcome=b'\3\2\0\0\0') + thread1(), '52 Clash 0 0')
changed('otherrun', thread0() + piece(FIRST, D, 1, 1, 0, w[2:], (8, 2), None, THREE), '41 OtherRun 2')
WIDE = run_of('wide', COUNTER, TWO, b'go 0 8\ngo 1 8\n', 128)
changed('otherblock', thread0() + piece(WIDE, D, 0, 1, 0, w[2:], (8, 2), None, THREE), '41 OtherRun 2')
changed('otherprofile', thread0() + piece(FIRST, D, 0, 1, 0, w[2:], (8, 2), None, THREE, False), '41 OtherRun 2')
changed('othermodule', thread0() + thread1() + piece(WIDE, digest(SHARED, READERS), 7, 0, 0, w[:2], (8, 2), None, ONE), '41 OtherRun 3')
changed('laterprofile', piece(FIRST, D, 2, 0, 0, w[:2], (8, 2), None, ONE, False) + thread1(), '41 OtherRun 2')
changed('otherorder', piece(FIRST, D, 0, 0, 0, w[:2]) + piece(FIRST, D, 0, 1, 0, w[2:]), '53 Missing 1 0', ' --order 1')
# what stands past an end, and what is of a thread that the plan lacks, changes nothing
keep('stray.pieces', thread0() + thread1() + piece(FIRST, D, 0, 7, 0, w[:1], (3, 1), None, b'\2'))
command('replay counter.wasm counter.plan stray.pieces --order 7,7,1', FIRST.report())
keep('pastend.pieces', thread0() + thread1() + piece(FIRST, D, 0, 0, 2, w[:1]) + piece(FIRST, D, 0, 0, 2, w[1:2]))
command('replay counter.wasm counter.plan pastend.pieces', FIRST.report())
# a log of profile 1, of this module, and of one that profile 1 does not fit
keep('old.pieces', piece(FIRST, D, 1, 0, 0, w[:2], (8, 2), None, ONE, False) + piece(FIRST, D, 1, 1, 0, w[2:], (8, 2), None, THREE, False))
command('replay counter.wasm counter.plan old.pieces', FIRST.report())
LARGE = Module([('w', [], 'i32', add + ['drop'] + add + ['end'])], (17, 17, True))
keep('large.wasm', LARGE.bytes)
keep('large.pieces', piece(FIRST, digest(LARGE, TWO), 1, 0, 0, w[:2], (8, 2), None, ONE, False))
refused('replay large.wasm counter.plan large.pieces', '58 OldProfile')
refused('replay large.wasm counter.plan large.pieces --threads', '58 OldProfile')
# the pieces of the missing place, found
script.append('record counter.wasm counter.plan --schedule first.schedule > whole.pieces'); expected.append('$ wreplay ' + script[-1] + '\n')
command('replay counter.wasm counter.plan whole.pieces', FIRST.report())

# ---- views of a replay that stops

def viewed(pieces, entries, ends, order='', place=None, step=None, write=None, start=None, length=None, notes=()):
    line = 'view counter.wasm counter.plan %s.pieces' % pieces
    if order: line += ' --order ' + order
    if place: line += ' --place %d.%d' % place
    if step: line += ' --step %d.%d' % step
    if write: line += ' --write %d+%d' % write
    if start is not None: line += ' --from %d' % start
    if length is not None: line += ' --len %d' % length
    for note in notes: line += ' --' + note
    stopped, world = stop(World(COUNTER, TWO), entries, ends, [int(n) for n in order.split(',')] if order else [], place, step, write)
    command(line, view(stopped, world, start or 0, 64 if length is None else length, 'names' in notes, 'offsets' in notes))
ENTRIES = {(n, p): e for n, t in enumerate(FIRST.threads) for p, e in enumerate(t.entries)}
ENDS = {t.n: (t.steps, len(t.entries), FIRST.outcome(t)) for t in FIRST.threads}
HOLE = {at: e for at, e in ENTRIES.items() if at != (1, 1)}
viewed('hole', HOLE, ENDS, length=16)
for order in ORDERS + ('1,1,1,1,7,0,0',):
    viewed('whole', ENTRIES, ENDS, order)
    for thread in (0, 1):
        for n in (0, 1, 2, 3, 8): viewed('whole', ENTRIES, ENDS, order, place=(thread, n)); viewed('whole', ENTRIES, ENDS, order, step=(thread, n))
    for write in ((0, 4), (3, 1), (63, 2), (64, 64), (0, 0), (0, 4294967295)): viewed('whole', ENTRIES, ENDS, order, write=write, length=16)
    viewed('whole', ENTRIES, ENDS, order, place=(1, 1), step=(1, 3), write=(0, 1), start=0, length=0)
    viewed('whole', ENTRIES, ENDS, order, place=(1, 1), step=(0, 5), start=65520, length=16)
    for notes in (('names',), ('offsets',), ('names', 'offsets')):
        for n in (0, 4): viewed('whole', ENTRIES, ENDS, order, place=(1, 1), step=(0, n), length=0, notes=notes)
viewed('whole', ENTRIES, ENDS, place=(7, 1), start=60, length=70)
viewed('hole', HOLE, ENDS, step=(1, 6), start=1, length=17)
refused('view counter.wasm counter.plan whole.pieces --from 65530 --len 64', '61 OutOfView')
refused('view counter.wasm counter.plan whole.pieces --from 4294967295 --len 4294967295', '61 OutOfView')
refused('view readers.wasm readers.plan whole.pieces', '51 OtherRun')
refused('view counter.wasm counter.plan otherrun.pieces', '41 OtherRun 2')
refused('view large.wasm counter.plan large.pieces', '58 OldProfile')
refused('view counter.wasm counter.plan kind.pieces', '55 Diverged 0 0')
refused('view counter.wasm counter.plan absent.pieces', '44 SourceFailed')
refused('view bad.wasm bad.plan absent.pieces', '1 Refused 33')

# ---- traces

def numbers(text): return [int(n) for n in text.split(',')] if text else []
def traced(pieces, entries, ends, order='', only='', held=(), since=None, to=None, offsets=False):
    line = 'trace counter.wasm counter.plan %s.pieces' % pieces
    if order: line += ' --order ' + order
    if only: line += ' --only ' + only
    for range_ in held: line += ' --bytes %d+%d' % range_
    if since: line += ' --from %d.%d' % since
    if to: line += ' --to %d.%d' % to
    if offsets: line += ' --offsets'
    command(line, trace(World(COUNTER, TWO), entries, ends, numbers(order), numbers(only), held, since, to, offsets))
traced('hole', HOLE, ENDS)
for order in ORDERS + ('1,1,1,1,7,0,0',):
    for only in ('0', '1', '7,1', '0,1,1', '7'): traced('whole', ENTRIES, ENDS, order, only)
    for held in ((0, 4), (3, 1), (4, 4), (0, 0), (0, 4294967295), (4294967295, 4294967295), (1, 0)): traced('whole', ENTRIES, ENDS, order, held=[held])
    traced('whole', ENTRIES, ENDS, order, held=[(8, 4), (2, 1), (2, 1)])
    traced('whole', ENTRIES, ENDS, order, only='1', held=[(1, 0), (64, 4)])
    for thread in (0, 1, 7):
        for n in (0, 1, 2, 4294967295):
            traced('whole', ENTRIES, ENDS, order, since=(thread, n))
            traced('whole', ENTRIES, ENDS, order, to=(thread, n))
    for offsets in (False, True): traced('whole', ENTRIES, ENDS, order, '1', [(0, 1)], (0, 0), (1, 0), offsets)
    traced('whole', ENTRIES, ENDS, order, offsets=True)
refused('trace readers.wasm readers.plan whole.pieces', '51 OtherRun')
refused('trace counter.wasm counter.plan otherrun.pieces', '41 OtherRun 2')
refused('trace large.wasm counter.plan large.pieces', '58 OldProfile')
refused('trace counter.wasm counter.plan kind.pieces', '55 Diverged 0 0')
refused('trace counter.wasm counter.plan absent.pieces', '44 SourceFailed')
refused('trace bad.wasm bad.plan absent.pieces', '1 Refused 33')

# recordings of profile 1 that were made apart: their listings, and their replays by three orders
ROWS = os.path.join(os.path.dirname(os.path.abspath(__file__)), 'profile1')
def row(name, kind):
    with open(os.path.join(ROWS, name + '.' + kind), 'rb') as file: return file.read()
for name in sorted({file.split('.')[0] for file in os.listdir(ROWS)}):
    for kind in ('wasm', 'plan', 'pieces'): keep('%s.%s' % (name, kind), row(name, kind))
    gathered(name, row(name, 'listing').decode())
    for order in ORDERS:
        command('replay %s.wasm %s.plan %s.pieces%s' % (name, name, name, ' --order ' + order if order else ''), row(name, 'report').decode())

# lines that are passed over: one that is no piece line, and one of another run
TWO_WRITES = (
    '49525001' + 'aa' * 32 + '%02d' + '00' * 7 + '0000000000020001' + '000101000000010000000000000000' + '0000000000000000'
    + '000101000000010100000000000000' + '0000000000000000' + '08000000020000000301000000\n')
FIRST_WRITE = '49525001' + 'aa' * 32 + '0100000000000000' + '0000000000010000' + '000101000000010000000000000000' + '0000000000000000\n'
SECOND_WRITE = (
    '49525001' + 'aa' * 32 + '0100000000000000' + '0001000000010001' + '000101000000010100000000000000' + '0000000000000000'
    + '08000000020000000301000000\n')
LISTED = 'run %s:1\n0.0 access w1@0/0\n0.1 access w1@1/0\n0 end steps=8 places=2 i32 1\nends 1 missing 0 strays 0 clashes 0\n' % ('aa' * 32)
NO_PIECES = 'run none\nends 0 missing 0 strays 0 clashes 0\n'
keep('mixed.pieces', 'zz\n' + SECOND_WRITE + TWO_WRITES % 2 + FIRST_WRITE)
command('gather --skip < mixed.pieces', LISTED, 'skipped 1 1\n')
command('gather --skip --by-object < mixed.pieces', by_object(LISTED), 'skipped 1 1\n')
refused('gather --by-object < mixed.pieces', '43 BadLine 1')
keep('second.piece', SECOND_WRITE)
gathered_by = by_object('\n'.join(line for line in LISTED.split('\n') if not line.startswith('0.0')))
command('gather --by-object < second.piece', gathered_by)
refused('gather < mixed.pieces', '43 BadLine 1')
keep('twice.pieces', TWO_WRITES % 1 + '\n' + TWO_WRITES % 1 + 'z' * 1000)
command('gather --skip < twice.pieces', LISTED, 'skipped 2 0\n')
command('gather --skip < counter.plan', NO_PIECES, 'skipped 3 0\n')
command('gather --skip', NO_PIECES, 'skipped 0 0\n')
command('gather --by-object', NO_PIECES)
command('gather --skip --by-object', NO_PIECES, 'skipped 0 0\n')

# reasons of more refusals: modules, plans, schedules and lines with one change
def patched(at, *bytes_): return COUNTER.bytes[:at] + bytes(bytes_) + COUNTER.bytes[at + len(bytes_):]
def check_of(name, content, text): keep(name + '.wasm', content); refused('check %s.wasm' % name, text)
check_of('text', b'(module)', '1 Refused 0')
check_of('float', patched(37, 0x43), '1 Refused 37')
check_of('bulk', patched(41, 0xFC, 0x0A), '1 Refused 41')
check_of('sections', patched(8, 0x0D, 0x05), '1 Refused 8')
check_of('many', bytes.fromhex('0061736d01000000050401008102ff'), '2 TooLarge')
check_of('untyped', patched(37, 0x01, 0x01), '11 Invalid 0 3')
check_of('aligned', patched(43, 0x01, 0x00), '11 Invalid 0 2')
check_of('upside', patched(24, 0x00, 0x07), '11 Invalid module')
# modules spelled by hand that are refused: a line of the file has the bytes, the refusal, and the reason, read by hand
with open(os.path.join(os.path.dirname(os.path.abspath(__file__)), 'modules')) as file:
    for number, line in enumerate(file, 1):
        spelled, text, reason = line.rstrip('\n').split('\t')
        name = keep('refused%d.wasm' % number, bytes.fromhex(spelled))
        command('check %s --why' % name, '', 'refused %s\n%s: %s\n' % (text, name, reason), 1)
# control characters of a path
command('check a\x01\x7f\u00e9.wasm --why', '', 'refused 44 SourceFailed\na??\u00e9.wasm: there is no such file\n', 1)
PATCHED = Module([('w', [], 'i32', add + ['end'])], data=((65535, b'ab'),))
keep('outside.wasm', PATCHED.bytes)
def plan_refused(name, content, text, module='counter'):
    keep(name + '.plan', content); refused('record %s.wasm %s.plan --schedule first.schedule' % (module, name), text)
plan_refused('headless', b'thread w\n', '13 BadLine 1')
plan_refused('spaced', b'wreplay plan 1\nthread w \n', '13 BadLine 2')
plan_refused('stranger', b'wreplay plan 1\nthread w\nthread v\n', '14 NoExport 3')
plan_refused('outsider', b'wreplay plan 1\nthread w\n', '17 SegmentOutOfBounds', 'outside')
def schedule_refused(name, content, text):
    keep(name + '.schedule', content); refused('record counter.wasm counter.plan --schedule %s.schedule' % name, text)
schedule_refused('sixteenth', b'go 0 1\ngo 16 1\n', '18 BadSchedule 2')
schedule_refused('millions', b'go 0 1000000\ngo 0 1\n', '18 BadSchedule 2')
schedule_refused('returned', b'go 0 1\r\n', '18 BadSchedule 1')
def line_refused(name, content, text): keep(name + '.pieces', content); refused('gather < %s.pieces' % name, text)
line_refused('odd', FIRST_WRITE + FIRST_WRITE[1:], '43 BadLine 2')
line_refused('upper', FIRST_WRITE.replace('aa', 'AA', 1), '43 BadLine 1')
line_refused('ended', FIRST_WRITE.rstrip() + '\r\n', '43 BadLine 1')
line_refused('short', FIRST_WRITE[:40] + '\n', '43 BadLine 1')
# compressed pieces, each as the tool's format has it: gzip and zstd with the bytes as they are, of xz the beginning alone
import zlib
PLAIN = FIRST_WRITE.encode()
line_refused('gzip', bytes.fromhex('1f8b08000000000000ff01') + struct.pack('<HH', len(PLAIN), 65535 - len(PLAIN)) + PLAIN + struct.pack('<II', zlib.crc32(PLAIN), len(PLAIN)), '43 BadLine 1')
line_refused('zstd', bytes.fromhex('28b52ffd20') + bytes([len(PLAIN)]) + (len(PLAIN) << 3 | 1).to_bytes(3, 'little') + PLAIN, '43 BadLine 1')
line_refused('xz', bytes.fromhex('fd377a585a000004e6d6b446'), '43 BadLine 1')
line_refused('behind', PLAIN + bytes.fromhex('1f8b08000000000000ff'), '43 BadLine 2')
refused('replay counter.wasm counter.plan gzip.pieces', '43 BadLine 1')
# what only begins as the mark of a format does
line_refused('mark', b'(\n', '43 BadLine 1')
line_refused('foreign', TWO_WRITES % 1 + TWO_WRITES % 2, '41 OtherRun 2')

# the hunt: its commands, and what they write, are kept with it; its pages show them
HUNT = os.path.join(os.path.dirname(os.path.abspath(__file__)), '..', '..', 'examples', 'hunt')
def of_hunt(name):
    with open(os.path.join(HUNT, name), 'rb') as file: return file.read()
for name in ('queue.wasm', 'queue.plan'): keep(name, of_hunt(name))
EAST, WEST = of_hunt('east.pieces'), of_hunt('west.pieces').splitlines(keepends=True)
keep('queue_come.pieces', EAST + b''.join(WEST[:1] + WEST[2:]))
keep('queue_whole.pieces', EAST + b''.join(WEST))
script += of_hunt('commands').decode().splitlines()
expected.append(of_hunt('outputs').decode())

# words that are not understood, and files that are not there: the texts of usage are open, so they are what the program says, read by hand
def usage(line, errors): command(line, '', 'error: %s\n' % errors, 2)
def unexpected(line, word, usage_line, tip=False):
    told = "\n\n  tip: to pass '%s' as a value, use '-- %s'" % (word, word) if tip else ''
    usage(line, "unexpected argument '%s' found%s\n\nUsage: wreplay %s\n\nFor more information, try '--help'." % (word, told, usage_line))
RECORD = 'record counter.wasm counter.plan'
REPORT = RECORD + ' --schedule first.schedule --report'
REPLAY = 'replay counter.wasm counter.plan first.pieces'
for more in (' --report', ' --report --run 1', ' --schedule first.schedule --threads'):
    usage(RECORD + more, "'record' takes one of '--schedule <FILE>', '--threads' and '--random'")
HUNT_WORDS = 'hunt counter.wasm counter.plan'
for first in ('18446744073709551616', '-'): usage(HUNT_WORDS + ' --from ' + first, "'--from <N>' takes a number from 0 to 18446744073709551614")
for runs in ('0', 'x', '18446744073709551616'): usage(HUNT_WORDS + ' --runs ' + runs, "'--runs <N>' takes a number from 1 to 18446744073709551615")
for range_of in (' --from 18446744073709551615 --runs 1', ' --from 1 --runs 18446744073709551615'):
    usage(HUNT_WORDS + range_of, "'--from <N>' and '--runs <N>' come to more than 18446744073709551615")
for jobs in ('0', '257', 'all'): usage(HUNT_WORDS + ' --jobs ' + jobs, "'--jobs <N>' takes a number from 1 to 256")
usage(HUNT_WORDS + ' --timeouts later', "'--timeouts <WHEN>' takes never or now")
for sign in (' --until trap', " --unless 'i32 10'", " --until 'thread 0 trap' --until waiting", ' --unless pages:'):
    usage(HUNT_WORDS + sign, "'--until <TEXT>' and '--unless <TEXT>' take the beginning of a line of a report, as 'thread 0 trap'")
usage(HUNT_WORDS + ' --print lines', "'--print <WHAT>' takes pieces or schedule")
for more in (' --shrink', ' --print schedule', ' --print lines'): usage(HUNT_WORDS + ' --list' + more, "'hunt' takes '--list' without '--shrink' and '--print schedule'")
for more in (' --jobs 2', ' --shrink', ' --print schedule', ' --list'):
    usage(HUNT_WORDS + ' --threads' + more, "'hunt' takes '--threads' without '--jobs', '--shrink', '--print schedule' and '--list'")
usage(HUNT_WORDS + ' --steps 1000000001', "'--steps <N>' takes a number from 0 to 1000000000")
usage(HUNT_WORDS + ' --block 96', "'--block <N>' takes 64, 128, 256, 512, 1024, 2048 or 4096")
usage(HUNT_WORDS + ' --quiet --quiet', "the argument '--quiet' cannot be used multiple times\n\nUsage: wreplay hunt [OPTIONS] <MODULE> <PLAN>\n\nFor more information, try '--help'.")
unexpected(RECORD + ' --random --quiet', '--quiet', 'record --random <MODULE> <PLAN>', True)
unexpected(REPLAY + ' --quiet', '--quiet', 'replay <MODULE> <PLAN> <PIECES>', True)
for size, text in ((0, '31 Empty'), (4097, '32 TooMany')): command(HUNT_WORDS + ' --size %d' % size, '', 'refused %s\n' % text, 1)
command('hunt none.wasm counter.plan', '', 'refused 44 SourceFailed\n', 1)
command('hunt counter.wasm none.plan', '', 'refused 44 SourceFailed\n', 1)
for size in (96, 32): usage(REPORT + ' --block %d' % size, "'--block <N>' takes 64, 128, 256, 512, 1024, 2048 or 4096")
usage(REPORT + ' --steps 1000000001', "'--steps <N>' takes a number from 0 to 1000000000")
unexpected(REPORT + ' --size -1', '-1', 'record [OPTIONS] <MODULE> <PLAN>', True)
usage(REPORT + ' --run 18446744073709551616', "'--run <N>' takes a number from 0 to 18446744073709551615")
usage(REPORT + ' --timeouts later', "'--timeouts <WHEN>' takes never or now")
for files in ('none.wasm none.plan --schedule none', 'counter.wasm none.plan --schedule none', 'counter.wasm counter.plan --schedule none'):
    command('record %s.schedule --size 0 --report' % files, '', 'refused 44 SourceFailed\n', 1)
command(RECORD + ' --schedule first.schedule --size 4097 --report', '', 'refused 32 TooMany\n', 1)
usage(REPLAY + ' --order 1,0 --threads', "'replay' takes either '--order <LIST>' or '--threads'")
for order in ('=', ' 1,', ' +1', ' 4294967296'):
    usage(REPLAY + ' --order' + order, "'--order <LIST>' takes 1 to 1000000 thread numbers, joined by commas")
unexpected('view counter.wasm counter.plan first.pieces --threads', '--threads', 'view <MODULE> <PLAN> <PIECES>', True)
TRACE = 'trace counter.wasm counter.plan first.pieces'
usage(TRACE + ' --order 1,', "'--order <LIST>' takes 1 to 1000000 thread numbers, joined by commas")
for only in ('=', ' 1,', ' +1', ' 4294967296'): usage(TRACE + ' --only' + only, "'--only <LIST>' takes 1 to 1000000 thread numbers, joined by commas")
for held in ('4', '4+', '4+-1', '4.1', '0+4294967296'): usage(TRACE + ' --bytes ' + held, "'--bytes <FROM+LEN>' takes an address and a length, as 0+4")
for at in ('1', '1.', '1+1', '1.4294967296', '1.0.0'):
    usage(TRACE + ' --from ' + at, "'--from <T.P>' takes a thread and a place, as 1.0")
    usage(TRACE + ' --to ' + at, "'--to <T.P>' takes a thread and a place, as 1.0")
unexpected(TRACE + ' --threads', '--threads', 'trace <MODULE> <PLAN> <PIECES>', True)
STOOD = ''.join('thread %d steps 0 places 0 running at 0+0\n' % thread for thread in (0, 1))
ZEROS = ''.join('%08x %s\n' % (at, '00' * 16) for at in range(0, 64, 16))
command('view counter.wasm counter.plan empty --step 0.0 --names', 'stuck\n' + STOOD + 'object 1 version 0 reads 0\n' + ZEROS)
command('gather', NO_PIECES)
for word in ('--fast', 'first.pieces'): unexpected('gather ' + word, word, 'gather [OPTIONS]')
# which bytes the objects are, in blocks of 64
TOLD = [line + '; 1: bytes 0..63' if ' access ' in line else line for line in expected[script.index('gather < first.pieces')].split('\n')[1:]]
command('gather --objects < first.pieces', '\n'.join(TOLD))
command('gather --skip --objects < first.pieces', '\n'.join(TOLD), 'skipped 0 0\n')
# objects that are named, and words that no listing has
BY_THREAD = FIRST.listing(D, 1)
for only in ('1', '0,1', '7,0', '1,1,4294967295'):
    command('gather --by-object --only %s < first.pieces' % only, by_object(BY_THREAD, [int(n) for n in only.split(',')]))
    command('gather --by-object --only %s --shared --skip < first.pieces' % only, by_object(BY_THREAD, [int(n) for n in only.split(',')], True), 'skipped 0 0\n')
for only in ('1,', 'x', '4294967296'):
    usage('gather --by-object --only %s' % only, "'--only <LIST>' takes 1 to 1000000 object numbers, joined by commas")
for words in ('--only 1', '--shared', '--only 1 --shared', '--objects --shared'):
    usage('gather ' + words, "'gather' takes '--only <LIST>' and '--shared' with '--by-object'")
command('chart', EMPTY)
for from_, to in ((None, None), ((1, 0), None), (None, (0, 1)), ((0, 1), (1, 1)), ((1, 1), (0, 0)), ((7, 0), None), (None, (0, 9))):
    words = (' --from %d.%d' % from_ if from_ else '') + (' --to %d.%d' % to if to else '')
    for only in ('', '1', '0,7'):
        command('chart%s%s < first.pieces' % (words, ' --only ' + only if only else ''), chart(BY_THREAD, [int(n) for n in only.split(',')] if only else (), from_, to))
command('chart --skip < first.pieces', chart(BY_THREAD), 'skipped 0 0\n')
command('chart --skip < mixed.pieces', chart(LISTED), 'skipped 1 1\n')
for only in ('1,', 'x', '4294967296'): usage('chart --only ' + only, "'--only <LIST>' takes 1 to 1000000 object numbers, joined by commas")
for at in ('1', '1.', '1.4294967296'):
    usage('chart --from ' + at, "'--from <T.P>' takes a thread and a place, as 1.0")
    usage('chart --to ' + at, "'--to <T.P>' takes a thread and a place, as 1.0")
refused('chart < short.pieces', '43 BadLine 1')
for words in ('--by-object --objects', '--contradictions --by-object --only 1'):
    usage('gather ' + words, "'gather' takes '--by-object' without '--objects' and '--contradictions'")
command('--version', 'wreplay 0.1.0\n')

# ---- where threads stand that have not returned: behind the lines of reports, views and traces

NAMES, OFFSETS, BOTH = NOTES = (('names',), ('offsets',), ('names', 'offsets'))
def flags(notes): return ''.join(' --' + note for note in notes)
def are(notes): return 'names' in notes, 'offsets' in notes
def shown_of(module, plan, world, files, pieces, order, stop_at, notes):
    """A view where a thread has made so many steps, or of the end; no bytes are shown."""
    turns = [int(n) for n in order.split(',')] if order else []
    words = (' --order ' + order if order else '') + (' --step %d.%d' % stop_at if stop_at else '') + ' --len 0' + flags(notes)
    command('view %s %s.pieces%s' % (files, pieces, words), view(*stop(World(module, plan), *log_of(world), turns, step=stop_at), 0, 0, *are(notes)))
def log_of(world):
    return ({(t.n, p): e for t in world.threads for p, e in enumerate(t.entries)}, {t.n: (t.steps, len(t.entries), world.outcome(t)) for t in world.threads})
def noted(name, module_file, module, plan_file, plan, schedule, orders=('',), steps=None, stops=(), threads=False):
    """One schedule, with where threads stand: its report, those of its replays, its views and its traces. Where threads come to
    the same whatever the schedule is, also what they record at once."""
    keep(module_file, module.bytes); keep(plan_file, plan); keep(name + '.schedule', schedule)
    world = run_of(name, module, plan, schedule, steps=1000000 if steps is None else steps)
    files = '%s %s' % (module_file, plan_file)
    recording = 'record %s --schedule %s.schedule' % (files, name) + (' --steps %d' % steps if steps is not None else '')
    for notes in NOTES: command(recording + ' --report' + flags(notes), world.report(*are(notes)))
    if threads:
        for notes in (NAMES, OFFSETS): command('record %s --threads --report%s' % (files, flags(notes)), world.report(*are(notes)))
    pieces = '%s > %s.pieces' % (recording, name)
    if pieces not in script: command(pieces)
    logs[name] = module_file, module, plan_file, plan, world.lines(digest(module, plan), 0, 4096)
    replay = 'replay %s %s.pieces' % (files, name)
    for order in orders:
        for notes in (NAMES, BOTH) if order == orders[0] else (OFFSETS,): command(replay + (' --order ' + order if order else '') + flags(notes), world.report(*are(notes)))
    for notes in (NAMES, OFFSETS): command(replay + ' --threads' + flags(notes), world.report(*are(notes)))
    for n, order in enumerate(orders):
        turns = [int(n) for n in order.split(',')] if order else []
        shown_of(module, plan, world, files, name, order, None, NOTES[n % 2])
        has_offsets = n % 2 == 0
        command('trace %s %s.pieces%s%s' % (files, name, ' --order ' + order if order else '', ' --offsets' if has_offsets else ''), trace(World(module, plan), *log_of(world), turns, offsets=has_offsets))
    for n, stop_at in enumerate(stops): shown_of(module, plan, world, files, name, orders[n % len(orders)], stop_at, NOTES[n % 2])
    return world

# traps of each kind, in the function itself, in those that it calls, and at the first instruction; a thread that waits; one that returned
I32 = lambda *numbers: [('i32.const', n) for n in numbers]
STANDING = [
    ('first', [], 'i32', ['unreachable', 'end']),
    ('later', [], None, I32(1) + ['drop', 'unreachable', 'end']),
    ('divide', ['i32', 'i32'], 'i32', [('local.get', 0), ('local.get', 1), 'i32.div_s', 'end']),
    ('ratio', ['i32'], 'i32', I32(6) + [('local.get', 0), ('call', 2)] + I32(1) + ['i32.add', 'end']),
    ('twice', ['i32'], 'i32', [('local.get', 0), ('call', 3), 'end']),
    ('element', ['i32'], 'i32', I32(-2147483648, -1) + [('local.get', 0), ('call_indirect', 2), 'end']),
    ('deep', [], None, [('call', 6), 'end']),
    ('past', [], 'i32', load(65536)),
    ('beyond', [], 'i32', load(131072)),
    ('odd', [], 'i32', I32(2) + ['i32.atomic.load', 'end']),
    ('sleep', [], 'i32', wait(0, 0, -1)),
    ('sleeper', [], 'i32', [('call', 10)] + I32(1) + ['i32.add', 'end']),
    ('seven', [], 'i32', I32(7) + ['end']),
    ('writes', [], 'i32', I32(64, 5) + ['i32.store', ('call', 7), 'end']),
]
TABLE = (2, None, 0)
PLACED = {0: 'first', 2: 'divide', 3: 'gr\u00f6\u00dfe::of', 4: 'two\nlines', 5: 'turned\u202e', 7: 'past', 10: 'atomic wait', 13: ''}
STANDS = Module(STANDING, (1, 2, True), table=TABLE)
NAMED = Module(STANDING, (1, 2, True), table=TABLE, names=PLACED)
EACH = plan_of('first', 'later', 'ratio 0', 'ratio 4', 'twice 0', 'element 0', 'element 1', 'element 2', 'element 3', 'past', 'beyond', 'odd', 'sleeper', 'seven', 'writes')
SOME = plan_of('first', 'later', 'twice 0', 'element 1', 'past', 'sleeper', 'writes')
def all_go(count): return b''.join(b'go %d 99\n' % n for n in range(count))
noted('stands', 'stands.wasm', STANDS, 'each.plan', EACH, all_go(15), ('', '14,14,12,4,4,4,4,4'), stops=((4, 8), (4, 7), (0, 1)), threads=True)
noted('named', 'named.wasm', NAMED, 'some.plan', SOME, all_go(7), ('', '6,6,5,2,2,2,2,2'), stops=((2, 8), (2, 7), (5, 4), (0, 1), (0, 0)), threads=True)
# a thread that stands in the midst of functions, since its schedule or its steps end there
TWICE = plan_of('twice 0', 'sleeper', 'element 0')
noted('midst', 'named.wasm', NAMED, 'twice.plan', TWICE, b'go 0 7\ngo 1 3\ngo 2 5\n', ('', '2,0,1', '1,1,1,1,0'), stops=((0, 5), (1, 2), (0, 8)))
noted('halted', 'named.wasm', NAMED, 'twice.plan', TWICE, b'go 0 99\ngo 1 99\ngo 2 99\n', steps=4)
noted('unbegun', 'stands.wasm', STANDS, 'twice.plan', TWICE, b'')
# a stack of as many functions as there may be
DEEP = World(STANDS, plan_of('deep', 'seven')).tries([(0, True, 999), (1, True, 9)])
keep('deep.plan', plan_of('deep', 'seven')); keep('deep.schedule', b'go 0 999\ngo 1 9\n')
command('record stands.wasm deep.plan --schedule deep.schedule --report --names', DEEP.report(True))
command('record stands.wasm deep.plan --schedule deep.schedule > deep.pieces')
command('replay stands.wasm deep.plan deep.pieces --threads --names', DEEP.report(True))
# the start function, before which the exported one waits
BEGUN = [('check', [], None, I32(1, 0) + ['i32.load', 'i32.div_s', 'drop', 'end']), ('main', [], 'i32', I32(0, 0) + ['i32.store', ('call', 2), 'end']), ('fail', [], 'i32', ['unreachable', 'end'])]
for name, names in (('begun', None), ('begins', {0: 'check', 1: 'main'})):
    BEGINS = Module(BEGUN, data=((0, b'\1'),), start=0, names=names)
    for run, schedule, order in (('1', b'go 0 99\ngo 1 99\n', '0,0,0,0,1'), ('2', b'go 1 6\ngo 0 99\ngo 1 99\n', '1,0,1,0,1')):
        noted(name + run, name + '.wasm', BEGINS, 'begun.plan', plan_of('main', 'main'), schedule, ('', order), stops=((1, 3), (0, 9)))
# the modules above: all return, accesses that trap, one of them by the order of the run, a memory that is not shared, waits
noted('done', 'counter.wasm', COUNTER, 'counter.plan', TWO, b'go 0 3\ngo 1 8\ngo 0 5\n')
noted('traps', 'traps.wasm', TRAPS, 'traps.plan', plan_of('d', 'u'), b'go 0 9\ngo 1 9\n', threads=True)
noted('reader', 'grow.wasm', GROW, 'grow.plan', GROWS, b'go 1 3\ngo 0 3\n', ('', '1,1'), stops=((1, 1), (1, 2)))
noted('alone', 'alone.wasm', ALONE, 'alone.plan', plan_of('f'), b'go 0 9\n', threads=True)
noted('asleep', 'five.wasm', FIVE, 'five.plan', FIVES, b'go 2 4\ngo 0 4\ngo 1 4\ngo 3 4\ngo 4 3\n')
noted('limited2', 'limited.wasm', LIMITED, 'limited.plan', plan_of('f', 'n'), b'go 0 4\ngo 1 4\nout 0\ngo 0 2\n')
# runs that numbers draw
def drawn_notes(module_file, module, plan_file, plan, number, timeouts=False):
    world = World(module, plan); world.draw(number, timeouts)
    words = 'record %s %s --random --run %d%s' % (module_file, keep(plan_file, plan), number, ' --timeouts now' if timeouts else '')
    for notes in NOTES: command(words + ' --report' + flags(notes), world.report(*are(notes)))
    pieces = 'noted_%s_%d.pieces' % (module_file[:-5], number)
    command('%s > %s' % (words, pieces))
    command('replay %s %s %s --order 1,0 --names' % (module_file, plan_file, pieces), world.report(True))
    command('replay %s %s %s --threads --offsets' % (module_file, plan_file, pieces), world.report(False, True))
for number in range(4):
    drawn_notes('named.wasm', NAMED, 'three.plan', plan_of('writes', 'sleeper', 'twice 0'), number)
    drawn_notes('begins.wasm', BEGINS, 'begun.plan', plan_of('main', 'main'), number)
    drawn_notes('limited.wasm', LIMITED, 'limited.plan', plan_of('f', 'n'), number, True)
# notes change no refusal, and a recording has them in its report alone
for notes in NOTES:
    for more in (' --schedule third.schedule', ' --threads', ' --random --run 1', ' --threads --size 4097'):
        usage(RECORD + more + flags(notes), "'record' takes '--names' and '--offsets' with '--report'")
    usage(RECORD + flags(notes), "'record' takes one of '--schedule <FILE>', '--threads' and '--random'")
    usage(RECORD + ' --threads --run x' + flags(notes), "'--run <N>' takes a number from 0 to 18446744073709551615")
    usage(RECORD + ' --threads --block 96' + flags(notes), "'--block <N>' takes 64, 128, 256, 512, 1024, 2048 or 4096")
    usage('replay counter.wasm counter.plan third.pieces --order 1,0 --threads' + flags(notes), "'replay' takes either '--order <LIST>' or '--threads'")
    usage('replay counter.wasm counter.plan third.pieces --order 1,' + flags(notes), "'--order <LIST>' takes 1 to 1000000 thread numbers, joined by commas")
    command(RECORD + ' --schedule third.schedule --size 4097 --report' + flags(notes), '', 'refused 32 TooMany\n', 1)
    command('record bad.wasm counter.plan --schedule third.schedule --report' + flags(notes), '', 'refused 1 Refused 33\n', 1)
    for turns in ('', ' --threads'):
        for pieces, text in (('missing', '53 Missing 1 0'), ('clash', '52 Clash 0 0'), ('version', '57 Stuck'), ('kind', '55 Diverged 0 0'), ('absent', '44 SourceFailed')):
            command('replay counter.wasm counter.plan %s.pieces%s%s' % (pieces, turns, flags(notes)), '', 'refused %s\n' % text, 1)

# ---- dialogues with a debugger

def debugged(name, *talks, more='', order=''):
    """What is answered to lines that come, over the replay of a log."""
    module_file, module, plan_file, plan, pieces = logs[name]
    for it in talks:
        keep(it + '.lines', TALKS[it])
        words = module_file, plan_file, name, more + (' --order ' + order if order else ''), it
        command('debug %s %s %s.pieces%s < %s.lines' % words, talk(module, plan, pieces, TALKS[it], numbers(order)))
for name in ('missing', 'hole', 'clash', 'version', 'object', 'kind', 'longer', 'shorter', 'noend', 'twoends', 'stray', 'pastend', 'old', 'otherorder'):
    logs[name] = 'counter.wasm', COUNTER, 'counter.plan', TWO, kept[name + '.pieces'].decode()
logs['whole'] = 'counter.wasm', COUNTER, 'counter.plan', TWO, FIRST.lines(D, 0, 4096)
EVERY = ('opening', 'through', 'alone', 'nobody', 'places', 'writes', 'watches', 'elsewhere', 'first', 'legs', 'rounds', 'events', 'gotos', 'reverse', 'who', 'asked', 'around', 'finish', 'again', 'objects', 'writers', 'functions', 'ranges', 'help', 'bad', 'long', 'blank', 'unended', 'last', 'behind', 'only')
debugged('whole', *EVERY)
debugged('whole', 'unended', more=' --why')
for order in ORDERS + ('1,1,1,1,7,0,0', '4294967295'): debugged('whole', 'orders', 'through', order=order)
for name in ('whole', 'second', 'hole', 'missing', 'clash', 'version', 'kind', 'longer', 'shorter', 'noend', 'twoends', 'readers', 'five', 'traps', 'limited1', 'limited2'): debugged(name, 'waits', 'orders')
for name in ('hole', 'clash', 'kind'): debugged(name, 'orders', order='1,0,1,1,0,0,0')
for order in ('1,1,1,1', '0,1,0,1'): debugged('limited1', 'orders', order=order)
command('debug counter.wasm counter.plan whole.pieces')
command('debug counter.wasm counter.plan whole.pieces < empty')
for name in ('second', 'third', 'fourth'): debugged(name, 'alone', 'legs', 'rounds', 'places', 'events', 'gotos', 'reverse', 'who', 'again', 'functions')
for name in ('hole', 'missing', 'clash', 'version', 'object', 'kind', 'longer', 'shorter', 'noend', 'twoends'): debugged(name, 'through', 'alone', 'events', 'gotos', 'around', 'finish', 'again', 'writers', 'functions')
for name in ('stray', 'pastend', 'old', 'otherorder', 'bounded', 'nothing'): debugged(name, 'through')
command('debug counter.wasm counter.plan empty < through.lines', talk(COUNTER, TWO, '', TALKS['through']))
debugged('readers', 'crossed', 'writes', 'watches', 'places', 'events', 'gotos', 'reverse', 'who', 'around', 'again', 'objects')
debugged('border64', 'border', 'through', 'who'); debugged('border4096', 'border', 'who'); debugged('past64', 'alone'); debugged('page4096', 'border')
debugged('reader', 'grown', 'pair', 'who', 'objects', 'watches'); debugged('grower', 'grown', 'rounds', 'who', 'gotos')
for name in ('limited1', 'limited2', 'endless1'): debugged(name, 'pair', 'through', 'events', 'gotos', 'reverse')
debugged('five', 'crossed', 'through', 'rounds', 'places', 'reverse', 'who', 'around'); debugged('ever', 'alone'); debugged('alone', 'through'); debugged('traps', 'through', 'alone', 'events', 'reverse', 'asked'); debugged('exchangef', 'writes', 'watches')
for name in ('named', 'midst', 'halted', 'unbegun', 'begun1', 'begins2'): debugged(name, 'standing', 'asked', 'finish', 'functions', 'named')
logs['deep'] = 'stands.wasm', STANDS, 'deep.plan', plan_of('deep', 'seven'), DEEP.lines(digest(STANDS, plan_of('deep', 'seven')), 0, 4096)
debugged('deep', 'deep')
# locals and operands of functions that call one another
CALLED = Module([
    ('adds', [], 'i32', add + ['end']),
    ('outer', ['i64'], 'i32', [('i32.const', -2), ('i32.const', 70000), ('i64.const', 6), ('call', 2), 'i32.add', 'end'], [(0, 'i64'), (1, 'i32')]),
    ('inner', ['i32', 'i64'], 'i32', [('i64.const', -1), ('local.set', 3), ('local.get', 0), ('i32.const', -70001), 'i32.add', ('local.tee', 2), 'end'], [(1, 'i32'), (2, 'i64')]),
])
keep('called.wasm', CALLED.bytes); keep('called.plan', plan_of('adds', 'outer -9'))
recorded('called', 'called.wasm', CALLED, 'called.plan', plan_of('adds', 'outer -9'), schedule_text([(1, True, 99), (0, True, 99)]).encode())
debugged('called', 'called')
for number, name in enumerate(('first', 'third', 'fourth', 'readers', 'five', 'limited1', 'limited2', 'grower', 'hole', 'version', 'midst', 'begins1')):
    TALKS['drawn%d' % number] = drawn_talk(Words(number).below, len(World(logs[name][1], logs[name][3]).threads), 20)
    debugged(name, 'drawn%d' % number)
# over the run of the hunt, whose module the model can't run: answers of an interpreter that was made apart
QUEUE = os.path.join(os.path.dirname(os.path.abspath(__file__)), 'queue')
for name in ('lock', 'item'):
    for kind in ('lines', 'answers'):
        with open(os.path.join(QUEUE, '%s.%s' % (name, kind)), 'rb') as file:
            if kind == 'lines': keep(name + '.lines', file.read())
            else: command('debug queue.wasm queue.plan queue_whole.pieces < %s.lines' % name, file.read().decode())
# refusals before the first command is read
for files, text in (
        ('readers.wasm readers.plan whole.pieces', '51 OtherRun'), ('counter.wasm counter.plan otherrun.pieces', '41 OtherRun 2'),
        ('large.wasm counter.plan large.pieces', '58 OldProfile'), ('counter.wasm counter.plan absent.pieces', '44 SourceFailed'),
        ('bad.wasm bad.plan absent.pieces', '1 Refused 33')):
    refused('debug ' + files, text)
    command('debug %s < alone.lines' % files, '', 'refused %s\n' % text, 1)
for order in ('=', ' 1,'): usage('debug counter.wasm counter.plan first.pieces --order' + order, "'--order <LIST>' takes 1 to 1000000 thread numbers, joined by commas")
for more in (' --threads', ' --names'): unexpected('debug counter.wasm counter.plan first.pieces' + more, more[1:], 'debug <MODULE> <PLAN> <PIECES>', True)

# ---- exchanges with a debug adapter

def exchanged(name, opens, contents, behind=b'', told='', more=''):
    """What is answered to contents that come, each of a frame, and to what comes behind them."""
    command('dap%s < %s' % (more, keep(name + '.requests', framed(contents).encode() + behind)), answers(opens, contents), told, 1 if told else 0)
def adapted(name, *rows):
    """The same over the replay of a log."""
    module_file, module, plan_file, plan, pieces = logs[name]
    for it in rows:
        contents = requests('initialize', launch(module_file, plan_file, name + '.pieces'), *EXCHANGES[it])
        exchanged('%s_%s' % (name, it), lambda *named: Debugger(module, plan, Gathered(pieces)), contents)
for name in ('whole', 'second', 'five', 'named', 'reader', 'border64', 'traps'): adapted(name, 'motions', 'shown', 'evaluated')
for name in ('whole', 'third', 'readers', 'named'): adapted(name, 'breakpoints', 'disassembled')
for name in ('hole', 'missing', 'clash', 'version', 'kind', 'shorter', 'noend', 'deep'): adapted(name, 'motions')
adapted('deep', 'shown')
for name in ('whole', 'hole', 'clash', 'version', 'five', 'named'): adapted(name, 'versions')

# each instruction of the profile: behind `unreachable` any may stand
def access(code, align, offset=0): return code + leb(align) + leb(offset)
NARROW = (0, 0, 1, 1, 0, 0, 1, 1, 2, 2)
LOADS = [*zip((0x28, 0x29, *range(0x2c, 0x36)), (2, 3) + NARROW), *zip((0x36, 0x37, *range(0x3a, 0x3f)), (2, 3, 0, 1, 0, 1, 2))]
ATOMICS = [(0, 2), (1, 2), (2, 3), *((0x10 + n, (2, 3, 0, 1, 0, 1, 2)[n % 7]) for n in range(63))]
SINGLE = [bytes([it]) for it in (0x01, 0x0f, 0x1a, 0x1b, *range(0x45, 0x5b), *range(0x67, 0x8b), 0xa7, 0xac, 0xad, *range(0xc0, 0xc5))]
INDEXED = [bytes([it, 0]) for it in (0x0c, 0x0d, 0x10)] + [bytes([it]) + leb(n) for it in (0x20, 0x21, 0x22) for n in (1, 300)] + [b'\x23\0', b'\x24\1', b'\x11\1\0', b'\x3f\0', b'\x40\0', b'\xfe\3\0']
CONSTANTS = [b'\x41' + sleb(n) for n in (0, -5, 64, 2 ** 31 - 1, -2 ** 31)] + [b'\x42' + sleb(n) for n in (-1, 2 ** 63 - 1, -2 ** 63)]
ACCESSES = [access(bytes([it]), *more) for it, align in LOADS for more in ((align, 0), (align, 16), (0, 0), (align // 2, 2 ** 32 - 1))]
SHARING = [access(b'\xfe' + leb(it), align, offset) for it, align in ATOMICS for offset in (0, 4)]
BLOCKS = [b'\2\x40', b'\3\x7f', b'\x0b', b'\2\x40', b'\4\x40', b'\x0e\3\0\1\2\0', b'\5', b'\x0e\0\1', b'\x0b', b'\x0b', b'\4\x7e', b'\5', b'\x0b', b'\2\x7f', b'\x0b', b'\x0b']
EVERY = Module([('w', [], 'i32', add + ['end']), ('every', [], None, [it for one in SINGLE + INDEXED + CONSTANTS + ACCESSES + SHARING + BLOCKS for it in ('unreachable', ('bytes', one))] + ['unreachable', 'end'], [(301, 'i32')])],
               table=(0,), globals=(('i32', False, 1), ('i64', True, 2)))
keep('every.wasm', EVERY.bytes); keep('every.plan', plan_of('w'))
recorded('every', 'every.wasm', EVERY, 'every.plan', plan_of('w'), b'go 0 9\n')
FIRST_PLACE, *_ = EVERY.offsets[1]
exchanged('every', lambda *named: Debugger(EVERY, plan_of('w'), Gathered(logs['every'][4])),
          requests('initialize', launch('every.wasm', 'every.plan', 'every.pieces'), disassembly(hex(FIRST_PLACE), len(EVERY.offsets[1]) + 2, instructionOffset=-1)))
exchanged('before', None, requests(*BEFORE))
exchanged('nothing', None, [])
for name, files, text in (('absent', ('counter.wasm', 'counter.plan', 'absent.pieces'), '44 SourceFailed'), ('bad', ('bad.wasm', 'bad.plan', 'whole.pieces'), '1 Refused 33'), ('other', ('readers.wasm', 'readers.plan', 'whole.pieces'), '51 OtherRun'),
                          ('old', ('large.wasm', 'counter.plan', 'large.pieces'), '58 OldProfile')):
    exchanged('launch_' + name, lambda *named: 'refused ' + text, requests('initialize', launch(*files), *BEHIND))
exchanged('launch_none', None, requests(launch('counter.wasm', 'counter.plan'), *BEHIND)); exchanged('launch_two', None, requests(launch('counter.wasm', 'counter.plan', 'whole.pieces', 'whole.pieces'), *BEHIND))
for name, behind in (('ended', b'Content-Length: 9\r\n\r\n[]'), ('header', b'Content-Length: 2\r\n'), ('field', b'Length 2\r\n\r\n{}'), ('unsized', b'Content-Type: x\r\n\r\n{}'), ('large', b'Content-Length: 1048577\r\n\r\n{}')):
    for more in ('', ' --why'):
        reason = REASONS.get('dap --why < broken_%s.requests' % name, '?') + '\n' if more else ''
        exchanged('broken_' + name, None, requests('initialize', 'threads'), behind, 'refused 73 BadFrame\n' + reason, more)
unexpected('dap counter.wasm', 'counter.wasm', 'dap [OPTIONS]')

# ---- checks, and hints at what may go wrong with the threads of a plan

def hinted(module_file, module, plan_file, *threads):
    keep(module_file, module.bytes); keep(plan_file, plan_of(*threads))
    command('check %s --threads %s' % (module_file, plan_file), checked(module, plan_of(*threads)))
GLOBALS = (('i32', True, 4096), ('i32', True, 7), ('i64', True, 0), ('i32', False, 9), ('i32', True, 1))
def get(n): return [('global.get', n), 'drop']
def put(n, value): return [('i32.const', value), ('global.set', n)]
PUSH = [('global.get', 0), ('i32.const', -16), 'i32.add', ('global.set', 0)]
STACKS = [
    ('pushes', [], None, PUSH + ['end']),
    ('own', ['i32'], None, [('local.get', 0), ('global.set', 0)] + PUSH + [('call', 0), 'end']),
    ('calls', [], None, [('call', 0)] + put(0, 8) + put(1, 8) + ['end']),
    ('indirect', [], None, put(1, 3) + I32(0) + [('call_indirect', 0)] + put(0, 8) + ['end']),
    ('silent', [], None, ['end']),
    ('second', [], None, put(0, 64) + get(1) + ['end']),
    ('both', [], None, put(1, 5) + put(0, 64) + get(0) + get(1) + [('call', 0), 'end']),
    ('others', [], None, get(2) + [('i64.const', 5), ('global.set', 2)] + get(3) + get(4) + ['end']),
]
def stacks(*more, memory=(1, 1, True)): return Module(STACKS + list(more), memory, table=(0,), globals=GLOBALS)
ATOMIC, FENCED = stacks(('adds', [], 'i32', add + ['end'])), stacks(('fences', [], None, ['fence', 'end']))
for plan_file, threads in (
        ('alike.plan', ('pushes', 'pushes', 'own 9000')), ('apart.plan', ('own 9000', 'own 8000')), ('late.plan', ('calls', 'silent', 'second', 'indirect', 'pushes')),
        ('lonely.plan', ('pushes', 'own 9000', 'silent')), ('seconds.plan', ('second', 'second')), ('bothset.plan', ('both', 'both')), ('others.plan', ('others', 'others')),
        ('sixteen.plan', ('calls',) * 16), ('caller.plan', ('calls',))):
    hinted('stacks.wasm', ATOMIC, plan_file, *threads)
    hinted('fenced.wasm', FENCED, plan_file, *threads)
hinted('unread.wasm', Module(STACKS, None, table=(0,), globals=GLOBALS), 'alike.plan', 'pushes', 'pushes', 'own 9000')
hinted('lost.wasm', Module([('w', [], 'i32', I32(0) + load(0)[:-1] + I32(1) + ['i32.add', 'i32.store'] + load(0))]), 'counter.plan', 'w', 'w')
for kind, body in (('waits', wait(0, 1, 0)), ('notifies', I32(0, 1) + ['notify', 'end']), ('exchanges', I32(0, 1, 2) + ['i32.atomic.rmw8.cmpxchg_u', 'end']), ('loads', I32(0) + ['i32.atomic.load', 'end'])):
    hinted('only_%s.wasm' % kind, Module([('w', [], 'i32', body)]), 'counter.plan', 'w', 'w')
hinted('only_stores.wasm', Module([('w', [], None, I32(0, 1) + ['i32.atomic.store', 'end'])]), 'counter.plan', 'w', 'w')
hinted('alone.wasm', ALONE, 'alone.plan', 'f')
hinted('counter.wasm', COUNTER, 'counter.plan', 'w', 'w')
command('check counter.wasm', checked(COUNTER))
command('check stacks.wasm', checked(ATOMIC))
command('check fenced.wasm --threads alike.plan --why', checked(FENCED, plan_of('pushes', 'pushes', 'own 9000')))
# the refusals of the plan are those of a recording, in words too
for files, text in (('counter headless', '13 BadLine 1'), ('counter spaced', '13 BadLine 2'), ('counter stranger', '14 NoExport 3'), ('outside outsider', '17 SegmentOutOfBounds')):
    words = '%s.wasm' % files.split(' ')[0], '%s.plan' % files.split(' ')[1]
    command('check %s --threads %s' % words, '', 'refused %s\n' % text, 1)
    command('check %s --threads %s --why' % words, '', 'refused %s\n%s\n' % (text, REASONS['record %s %s --schedule first.schedule --why' % words]), 1)
keep('wrong.plan', plan_of('own')); keep('unshared.plan', plan_of('f', 'f'))
command('check stacks.wasm --threads wrong.plan', '', 'refused 15 WrongArguments 2\n', 1)
command('check alone.wasm --threads unshared.plan', '', 'refused 16 NotShared\n', 1)
command('check none.wasm --threads none.plan', '', 'refused 44 SourceFailed\n', 1)
command('check counter.wasm --threads none.plan', '', 'refused 44 SourceFailed\n', 1)
command('check none.wasm --threads none.plan --why', '', 'refused 44 SourceFailed\nnone.wasm: there is no such file\n', 1)
command('check counter.wasm --threads none.plan --why', '', 'refused 44 SourceFailed\nnone.plan: there is no such file\n', 1)
command('check bad.wasm --threads none.plan', '', 'refused 1 Refused 33\n', 1)
usage('check counter.wasm --threads', "a value is required for '--threads <PLAN>' but none was supplied\n\nFor more information, try '--help'.")
usage('check counter.wasm --threads counter.plan --threads counter.plan', "the argument '--threads <PLAN>' cannot be used multiple times\n\nUsage: wreplay check [OPTIONS] <MODULE>\n\nFor more information, try '--help'.")
unexpected('check counter.wasm counter.plan', 'counter.plan', 'check [OPTIONS] <MODULE>')

keep('commands', '\n'.join(script) + '\n')
with open(os.path.join(TARGET, 'stdout'), 'w') as file: file.write(''.join(expected))
print(len(script), 'commands', len(os.listdir(DATA)), 'files', len(''.join(expected)), 'bytes')
