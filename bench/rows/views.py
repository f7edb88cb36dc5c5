"""Views of replays that stop, by the model: a turn is tried on a copy of the world, and kept where its entry is the log's."""
from model import SIZE

def turn(world, entries, ends, n):
    """The world behind a turn of thread n, and the entry of its event; None where the turn makes no step."""
    if n >= len(world.threads) or n not in ends: return None
    t = world.threads[n]
    if (t.steps, len(t.entries), world.outcome(t)) == ends[n]: return None
    place = len(t.entries)
    entry = entries.get((n, place))
    tried = world.copied()
    if not tried.pick(n, not (t.sleep is not None and entry is not None and entry[0] == 'timedout'), 10**9): return None
    made = tried.threads[n].entries[place:]
    if made and made[0] != entry: return None
    return tried, made

def written(world, made, start, length):
    objects = [int(x[1:].split('@')[0]) for _, found in made for x in found if x[0] == 'w']
    return length > 0 and any(o % 2 == 1 and start // world.block <= (o - 1) // 2 <= (start + length - 1) // world.block for o in objects)

def stop(world, entries, ends, order, place=None, step=None, write=None):
    """Where a replay stops, and its world there."""
    turns, quiet = list(order), 0
    while True:
        if not turns:
            if quiet: break
            turns, quiet = list(range(len(world.threads))), 1
        n = turns.pop(0)
        after = turn(world, entries, ends, n)
        if after is None: continue
        world, made = after
        quiet = 0
        t = world.threads[n]
        if place and made and n == place[0] and len(t.entries) == place[1]: return 'stopped place', world
        if step and n == step[0] and t.steps == step[1]: return 'stopped step', world
        if write and written(world, made, *write): return 'stopped write', world
    done = all((t.steps, len(t.entries), world.outcome(t)) == ends.get(t.n) for t in world.threads)
    return ('finished' if done else 'stuck'), world

def thread_line(world, t, names, offsets):
    return 'thread %d steps %d places %d %s%s\n' % (t.n, t.steps, len(t.entries), world.outcome(t), world.note(t, names, offsets))

def bytes_shown(world, start, length):
    """The blocks that hold a byte of a range, and its bytes."""
    out = ''
    for b in world.blocks(start, length) if length else []:
        out += 'object %d version %d reads %d\n' % (1 + 2 * b, world.version.get(1 + 2 * b, 0), world.reads.get(1 + 2 * b, 0))
    for a in range(start, start + length, 16):
        out += '%08x %s\n' % (a, world.mem[a:min(a + 16, start + length)].hex())
    return out

def view(stopped, world, start, length, names=False, offsets=False):
    out = stopped + '\n'
    for t in world.threads: out += thread_line(world, t, names, offsets)
    return out + bytes_shown(world, start, length)

# ---- traces

def number(n): return str(n) if n < 65536 else hex(n)

def found_at(world, addr, size):
    return int.from_bytes(world.mem[addr:addr + size], 'little') if addr + size <= world.length else None

def action(world, n, kind):
    """The word, address and size of a thread's next event, a number that it is told with, and whether it writes."""
    t = world.threads[n]
    if t.sleep is not None: return ('woken' if kind == 'woken' else 'timed out'), t.sleep[0], None, None, False
    name = world.next(t)[0]
    args = [v for _, v in t.stack]
    if name == 'memory.size': return 'size', None, None, None, False
    if name == 'memory.grow': return 'grow', None, None, args[-1], True
    if name == 'wait32': return 'wait', args[-3], SIZE[name], args[-2], False
    if name == 'notify': return 'notify', args[-2], None, args[-1], False
    if 'cmpxchg' in name: return 'cmpxchg', args[-3], SIZE[name], args[-2], True
    if 'rmw.add' in name: return 'add', args[-2], SIZE[name], None, True
    if 'store' in name: return 'store', args[-2], SIZE[name], None, True
    return 'load', args[-1], SIZE[name], None, False

def event_line(before, after, n, kind, offsets):
    t, u = before.threads[n], after.threads[n]
    word, addr, size, told, writes = action(before, n, kind)
    line = '%d.%d %s %s' % (n, len(t.entries), before.m.place(*t.standing()[0], offsets), word)
    if size is not None or word in ('size', 'grow'):
        old, new = (found_at(w, addr, size) if size is not None else w.length // 65536 for w in (before, after))
        if size is not None: line += ' %d i%d' % (addr, 8 * size)
        elif told is not None: line += ' %d' % told
        if old is not None: line += ' ' + number(old)
        if writes and new is not None: line += ' -> ' + number(new)
        if size is not None and told is not None and old is not None and old != told: line += ' not ' + number(told)
    else: line += ' %d' % addr + (' %d' % told if told is not None else '')
    outcome = after.outcome(u)
    return line + ('' if outcome == 'running' else ' ' + outcome) + '\n'

def touches(before, n, kind, start, length):
    word, addr, size, _, _ = action(before, n, kind)
    return addr is not None and max(addr, start) < min(addr + (size or 4), start + length)

def trace(world, entries, ends, order, only=(), held=(), since=None, to=None, offsets=False):
    """A line for each event on the way to where a replay stops, and the view of that world."""
    text, turns, quiet, stopped = '', list(order), 0, None
    while stopped is None:
        if not turns:
            if quiet: break
            turns, quiet = list(range(len(world.threads))), 1
        n = turns.pop(0)
        after = turn(world, entries, ends, n)
        if after is None: continue
        before, (world, made) = world, after
        quiet = 0
        if not made: continue
        passed = since is None or since[0] < len(world.threads) and len(world.threads[since[0]].entries) > since[1]
        if passed and (not only or n in only) and (not held or any(touches(before, n, made[0][0], *range_) for range_ in held)):
            text += event_line(before, world, n, made[0][0], offsets)
        if to and n == to[0] and len(world.threads[n].entries) == to[1] + 1: stopped = 'stopped place'
    done = all((t.steps, len(t.entries), world.outcome(t)) == ends.get(t.n) for t in world.threads)
    text += (stopped or ('finished' if done else 'stuck')) + '\n'
    for t in world.threads: text += thread_line(world, t, True, offsets)
    return text
