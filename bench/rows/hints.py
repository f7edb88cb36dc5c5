"""What `check` writes of a module, and of a plan for it: the summary, and hints at what may go wrong with its threads. Made of what
modules are made of, by the two rules of the help alone."""

def summary(module):
    if module.memory is None: memory = 'none'
    else: memory = '%d %s %s' % (module.memory[0], '-' if module.memory[1] is None else module.memory[1], 'shared' if module.memory[2] else 'unshared')
    rows = (('types', len(module.types)), ('functions', len(module.funcs)), ('table', len(module.table) or 'none'), ('memory', memory),
            ('globals', len(module.globals)), ('exports', len(module.funcs)), ('start', 'none' if module.start is None else module.start))
    return ''.join('%s %s\n' % row for row in rows) + 'valid\n'

def name_of(instruction): return instruction[0] if isinstance(instruction, tuple) else instruction
def is_atomic(instruction): return '.atomic.' in name_of(instruction) or name_of(instruction) in ('notify', 'wait32')

def begins_with(body, number):
    """The first instruction of a global, or call, is no `global.set` of it."""
    names = [('global.get', number), ('global.set', number)]
    found = [it for it in body if it in names or name_of(it) in ('call', 'call_indirect')]
    return bool(found) and found[0] != ('global.set', number)

def hints(module, plan):
    bodies = [f[3] for f in module.funcs]
    threads = [bodies[module.names().index(line.split(' ')[1])] for line in plan.decode().rstrip('\n').split('\n')[1:]]
    text = ''
    for number, (kind, mutable, value) in enumerate(module.globals):
        if kind == 'i32' and mutable and any(('global.set', number) in body for body in bodies):
            sharing = [thread for thread, body in enumerate(threads) if begins_with(body, number)]
            if len(sharing) > 1:
                text += 'warning: threads %s begin with the same value of global %d, which functions set: do they share a stack?\n' % (' '.join(map(str, sharing)), number)
    if len(threads) > 1 and module.memory and module.memory[2] and not any(is_atomic(it) for body in bodies for it in body):
        text += 'warning: the memory is shared, and no instruction is atomic\n'
    return text

def checked(module, plan=None): return summary(module) + ('' if plan is None else hints(module, plan))
