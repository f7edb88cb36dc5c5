"""Exchanges with a debug adapter, by the model of a debugger."""
import base64, json, re
from debugs import CLASH, UNKNOWN, number, touch
from model import s32, s64
from texts import disassembled

MOST_FRAMES, MOST_INSTRUCTIONS = 1024, 65536
MOTIONS = ('next', 'stepIn', 'stepOut', 'continue', 'stepBack', 'reverseContinue', 'pause')
CAN = ('ConfigurationDoneRequest', 'FunctionBreakpoints', 'StepBack', 'DataBreakpoints', 'ReadMemoryRequest', 'DisassembleRequest', 'InstructionBreakpoints', 'TerminateRequest')

def text_of(message): return json.dumps(message, ensure_ascii=False, separators=(',', ':'), sort_keys=True)
def framed(contents): return ''.join('Content-Length: %d\r\n\r\n%s' % (len(content.encode()), content) for content in contents)

class Refused(Exception): pass

class Adapter:
    """`opens` gives the debugger of the files that a launch names, or the text of a refusal."""
    def __init__(self, opens):
        self.opens, self.debugger, self.refused, self.over, self.functions, self.sent = opens, None, False, False, 0, []
    def send(self, message): self.sent.append(text_of(dict(message, seq=len(self.sent) + 1)))
    def answer(self, content):
        """What is sent for a content; nothing behind the end."""
        if self.over: return
        try: request = json.loads(content)
        except ValueError: request = None
        if not isinstance(request, dict) or not isinstance(request.get('seq'), int) or not isinstance(request.get('command'), str):
            return self.send({'type': 'event', 'event': 'output', 'body': {'category': 'important', 'output': 'error: a message that is no request\n'}})
        response, events = {'type': 'response', 'request_seq': request['seq'], 'command': request['command']}, []
        try: response.update(success=True, body=self.attend(request['command'], request.get('arguments', {}), events))
        except Refused as refused: response.update(success=False, message=str(refused)); events = []
        except (KeyError, TypeError): response.update(success=False, message='error: the arguments do not fit')
        self.send(response)
        for name, body in events: self.send({'type': 'event', 'event': name, 'body': body})
    def attend(self, name, given, events):
        if name == 'launch': named = given['module'], given['plan'], [str(it) for it in given['pieces']]
        if name in ('disconnect', 'terminate'): self.over = True; return {}
        if self.debugger is None:
            if name == 'initialize': return {'supports' + it: True for it in CAN}
            if name != 'launch': raise Refused('error: launch first')
            if self.refused: raise Refused('error: a launch was refused before, start the adapter anew')
            opened = self.opens(*named[:2], *named[2]) if len(named[2]) == 1 else 'error: launch needs module, plan, and pieces, a list of one file'
            if isinstance(opened, str): self.refused = True; raise Refused(opened)
            self.debugger = opened
            events.append(('initialized', {}))
            return {}
        if name in ('initialize', 'launch'): raise Refused('error: launched already')
        form = getattr(self, 'move' if name in MOTIONS else re.sub('[A-Z]', lambda m: '_' + m.group().lower(), 'on_' + name), None)
        if form is None: raise Refused('error: not supported')
        return form(given, events, name)
    def stopped(self, events, reason, id): events.append(('stopped', {'reason': reason, 'threadId': id, 'allThreadsStopped': True}))
    def thread(self, id):
        if not 0 < id <= len(self.debugger.world.threads): raise Refused('error: no such thread')
        return self.debugger.world.threads[id - 1]
    def on_configuration_done(self, given, events, name): self.stopped(events, 'entry', 1); return {}
    def on_threads(self, given, events, name): return {'threads': [{'id': t.n + 1, 'name': 'thread %d' % t.n} for t in self.debugger.world.threads]}
    def on_stack_trace(self, given, events, name):
        t, first, levels = self.thread(given['threadId']), given.get('startFrame', 0), given.get('levels', 0)
        m, places = self.debugger.world.m, t.standing() if t.out is None else []
        told = list(enumerate(places[:MOST_FRAMES]))[first:]
        return {'totalFrames': len(places), 'stackFrames': [
            {'id': 16 * depth + t.n + 1, 'name': m.title(f), 'line': 0, 'column': 0, 'instructionPointerReference': hex(m.offsets[f][at])} for depth, (f, at) in told[:levels or None]]}
    def frame(self, id):
        """The thread of a frame and what it holds."""
        n, depth = (id - 1) % 16, (id - 1) // 16
        t = self.debugger.world.threads[n] if 0 < id <= 16 * MOST_FRAMES and n < len(self.debugger.world.threads) else None
        if t is None or t.out is not None or depth >= len(t.frames): raise Refused('error: no such frame')
        return t.frames[-1 - depth]
    def on_scopes(self, given, events, name):
        id = given['frameId']
        self.frame(id)
        return {'scopes': [{'name': it, 'variablesReference': 3 * id + n, 'expensive': False} for n, it in enumerate(('Locals', 'Operands', 'Versions'))]}
    def on_variables(self, given, events, name):
        id, scope = divmod(given['variablesReference'], 3)
        frame = self.frame(id)
        if scope == 2: found = self.versions(self.debugger.world.threads[(id - 1) % 16])
        elif scope == 1: found = [('operand %d' % n, str(v) if v < 65536 else hex(v)) for n, (_, v) in enumerate(reversed(frame.stack))]
        else: found = [('local %d' % n, '%s %d' % (kind, (s32 if kind == 'i32' else s64)(v))) for n, (kind, v) in enumerate(frame.locals)]
        return {'variables': [{'name': it, 'value': value, 'variablesReference': 0} for it, value in found]}
    def versions(self, t):
        """Each object that a thread's next event touches by the log, as it is now, and as the log has it."""
        world, entry = self.debugger.world, self.debugger.log.entries.get((t.n, len(t.entries)))
        touched = [] if entry is None or entry is CLASH else [(int(touch(word)[1:]), word) for word in entry[1]]
        return [('object %d' % o, 'version %d reads %d, next %s' % (world.version.get(o, 0), world.reads.get(o, 0), word)) for o, word in touched]
    def on_read_memory(self, given, events, name):
        start, count = given.get('offset', 0), given['count']
        if given['memoryReference'] != 'memory': raise Refused('error: no such memory, try memory')
        if start < 0: raise Refused('error: no such address')
        found = bytes(self.debugger.world.mem[start:start + count][:max(self.debugger.world.length - start, 0)])
        return {'address': hex(start), 'data': base64.b64encode(found).decode(), 'unreadableBytes': count - len(found)}
    def verified(self, found, message): return {'breakpoints': [{'id': n, 'verified': it is not None, 'message': '' if it is not None else message} for n, it in enumerate(found)]}
    def on_set_breakpoints(self, given, events, name):
        return self.verified([None for _ in given.get('breakpoints', [])], 'error: no sources are known, set breakpoints at functions or instructions')
    def on_set_exception_breakpoints(self, given, events, name): return {}
    def on_set_function_breakpoints(self, given, events, name):
        m = self.debugger.world.m
        def entry(called): return next(((f, 0) for f in range(len(m.funcs)) if called in (str(f), m.title(f))), None)
        found = [entry(it['name']) for it in given['breakpoints']]
        kept = [it for it in found if it]
        self.debugger.instructions = kept + self.debugger.instructions[self.functions:]
        self.functions = len(kept)
        return self.verified(found, 'error: no such function')
    def place(self, reference, more):
        """The instruction that a reference names, so many bytes further."""
        if not re.fullmatch('0x[0-9a-fA-F]+', reference): return None
        return next(((f, at) for f, offsets in enumerate(self.debugger.world.m.offsets) for at, offset in enumerate(offsets) if offset == int(reference, 16) + more), None)
    def on_disassemble(self, given, events, name):
        first, count = given.get('instructionOffset', 0), given['instructionCount']
        meant = self.place(given['memoryReference'], given.get('offset', 0))
        if count > MOST_INSTRUCTIONS: raise Refused('error: more than 65536 instructions')
        if meant is None: raise Refused('error: no such instruction')
        there = dict(enumerate(disassembled(self.debugger.world.m.bytes)[meant[0]]))
        told = [there.get(meant[1] + first + n, (0, '(no instruction)')) for n in range(count)]
        return {'instructions': [{'address': hex(at), 'instruction': text} for at, text in told]}
    def on_set_instruction_breakpoints(self, given, events, name):
        found = [self.place(it['instructionReference'], it.get('offset', 0)) for it in given['breakpoints']]
        self.debugger.instructions = self.debugger.instructions[:self.functions] + [it for it in found if it]
        return self.verified(found, 'error: no such instruction')
    def range(self, name):
        word, *numbers = name.encode().split(b' ')
        numbers = [number(n) for n in numbers]
        return numbers if word == b'write' and len(numbers) == 2 and None not in numbers else None
    def on_data_breakpoint_info(self, given, events, name):
        return {'dataId': given['name'], 'description': given['name']} if self.range(given['name']) else {'dataId': None, 'description': 'error: no such bytes, try write FROM LEN'}
    def on_set_data_breakpoints(self, given, events, name):
        found = [self.range(it['dataId']) for it in given['breakpoints']]
        self.debugger.breaks = [('write', *it) for it in found if it]
        return self.verified(found, 'error: no such bytes, try write FROM LEN')
    def reason(self, stopped):
        """Why threads stand at a break: the last step was made by the thread that stands elsewhere than before."""
        if stopped in ('stopped write', 'stopped watch'): return 'data breakpoint'
        if stopped != 'stopped instruction': return 'breakpoint'
        before, after = self.debugger.passed[-2:]
        n, = (t.n for t in after.threads if t.steps != before.threads[t.n].steps)
        at = self.debugger.instructions.index(after.threads[n].standing()[0])
        return 'function breakpoint' if at < self.functions else 'instruction breakpoint'
    def move(self, given, events, name):
        d, id = self.debugger, given['threadId']
        n = self.thread(id).n
        if name in ('next', 'stepIn', 'stepOut'):
            line = (d.finish(n) if name == 'stepOut' else d.step(n, 1)).split('\n')[0] + '\n'
            made, *why = line.split()[1:]
            if not why: self.stopped(events, 'step', id)
            elif made == '0' and why != ['done']: raise Refused(line)
            else: events.append(('output', {'category': 'important', 'output': line})); self.stopped(events, 'pause', id)
        elif name == 'continue':
            stopped = d.run()
            if stopped.startswith('stopped') and stopped != 'stopped diverged': self.stopped(events, self.reason(stopped), id)
            else: events.append(('output', {'category': 'important', 'output': stopped + '\n'})); self.stopped(events, 'pause', id)
        elif name == 'stepBack': d.back(1); self.stopped(events, 'step' if d.legs else 'entry', id)
        elif name == 'reverseContinue':
            stopped = d.reverse().split('\n')[0]
            self.stopped(events, 'entry' if stopped == 'no break before' else self.reason(stopped), id)
        else: self.stopped(events, 'pause', id)
        return {'allThreadsContinued': True}
    def on_evaluate(self, given, events, name):
        line = given['expression'].encode()
        if line == b'quit': raise Refused('error: the session ends by disconnect')
        answer = self.debugger.answer(line)
        if answer == UNKNOWN or not line: raise Refused('error: no such command, try help')
        self.functions = min(self.functions, len(self.debugger.instructions))
        if line.split(b' ')[0] in (b'step', b'event', b'finish', b'continue', b'again', b'back', b'reverse', b'goto', b'writer!'): self.stopped(events, 'pause', 1)
        return {'result': answer, 'variablesReference': 0}

def answers(opens, contents):
    """What is sent for contents that come, each of a frame."""
    adapter = Adapter(opens)
    for content in contents: adapter.answer(content)
    return framed(adapter.sent)

# ---- requests that come

def requests(*rows):
    """Contents of requests, numbered from 1 on: a name, or a name and arguments; a text stands as it is."""
    def content(seq, row):
        if isinstance(row, str) and not row.isalpha(): return row
        name, given = (row, None) if isinstance(row, str) else row
        return text_of(dict({'seq': seq, 'type': 'request', 'command': name}, **({} if given is None else {'arguments': given})))
    return [content(seq + 1, row) for seq, row in enumerate(rows)]

def launch(module, plan, *pieces): return 'launch', {'module': module, 'plan': plan, 'pieces': list(pieces)}
def move(name, id): return name, {'threadId': id}
def stack(id, **more): return 'stackTrace', dict(threadId=id, **more)
def evaluate(line): return 'evaluate', {'expression': line}
def at_functions(*names): return 'setFunctionBreakpoints', {'breakpoints': [{'name': name} for name in names]}
def at_bytes(*ids): return 'setDataBreakpoints', {'breakpoints': [{'dataId': id} for id in ids]}
def at_instructions(*places): return 'setInstructionBreakpoints', {'breakpoints': [{'instructionReference': place, 'offset': more} for place, more in places]}
def memory(start, count, reference='memory'): return 'readMemory', {'memoryReference': reference, 'offset': start, 'count': count}
def disassembly(place, count, **more): return 'disassemble', dict(memoryReference=place, instructionCount=count, **more)
def all_of(name, *numbers): return [(name, {{'scopes': 'frameId', 'variables': 'variablesReference'}[name]: n}) for n in numbers]

# before a launch, and behind one that is refused
BEFORE = ('initialize', 'threads', 'configurationDone', 'dance', '[]', '{"seq":1}', move('next', 1), ('launch', {'module': 'm'}))
BEHIND = ('initialize', 'threads', launch('counter.wasm', 'counter.plan', 'whole.pieces'), 'disconnect', 'threads')
EXCHANGES = {
    'motions': (at_bytes('write 0 4'), 'configurationDone', 'threads', move('continue', 1), stack(1), stack(2), move('continue', 2), move('continue', 1), move('continue', 1), move('continue', 1),
                move('stepBack', 1), move('reverseContinue', 2), move('reverseContinue', 1), move('stepBack', 1), move('next', 1), move('stepIn', 1), move('next', 2), move('next', 1), move('stepOut', 2),
                move('stepOut', 1), move('next', 1), move('pause', 2), move('next', 0), move('next', 3), move('goto', 1)),
    'breakpoints': (('setBreakpoints', {'source': {}, 'breakpoints': [{'line': 3}, {'line': 4}]}), ('setBreakpoints', {}), ('setExceptionBreakpoints', {'filters': []}), ('dataBreakpointInfo', {'name': 'write 0 4'}),
                    ('dataBreakpointInfo', {'name': 'x'}), at_bytes('write 0 4', 'read 0 4', 'write 4294967295 4294967295'), at_functions('0', 'none', '1'), at_instructions(('0x29', 0), ('0x2d', -4), ('0x2a', 0), ('29', 0), ('0x', 0)),
                    move('continue', 1), move('continue', 1), move('continue', 1), evaluate('break 0 5'), at_functions(), move('continue', 1), at_bytes(), move('continue', 1), evaluate('delete'), move('reverseContinue', 1),
                    at_instructions(('0x25', 0)), move('continue', 1)),
    'shown': (*all_of('scopes', 1, 2, 3, 16, 17, 0), *all_of('variables', 3, 4, 5, 6, 7, 8, 9, 11, 0, 2), stack(1, startFrame=1), stack(1, levels=1), stack(3), stack(0), memory(0, 16), memory(65530, 16), memory(65536, 1), memory(-1, 4), memory(0, 4, 'stack'),
              memory(9223372036854775807, 18446744073709551615), ('readMemory', {'memoryReference': 'memory'}), ('stackTrace', {'threadId': '1'}), ('disassemble', {'memoryReference': '0x25', 'instructionCount': 4})),
    'versions': (*all_of('scopes', 1, 17), *all_of('variables', 5, 8, 11, 53), evaluate('event 1 99'), evaluate('waits 1'), *all_of('variables', 5, 8), evaluate('event 2 1'), *all_of('variables', 11), evaluate('step 5 2'), *all_of('variables', 20, 68),
                 evaluate('event 0 99'), evaluate('waits 0'), *all_of('variables', 5, 8), move('continue', 1), evaluate('threads'), *all_of('variables', 5, 8, 20, 68), move('stepBack', 1), *all_of('variables', 5, 8, 11)),
    'disassembled': (stack(1), disassembly('0x25', 4), disassembly('0x29', 3, instructionOffset=-1), disassembly('0x25', 20, instructionOffset=-3), disassembly('0x29', 2, offset=-4), disassembly('0x26', 1), disassembly('37', 1),
                     disassembly('0x25', 0), disassembly('0x25', 2, instructionOffset=2 ** 63 - 1), disassembly('0x25', 2, instructionOffset=-2 ** 63), disassembly('0x26', 65537), ('disassemble', {'memoryReference': '0x25'})),
    'evaluated': (evaluate('threads'), evaluate('step 0 3'), evaluate('locals 0'), evaluate('stack 0'), *all_of('variables', 3, 4, 5), evaluate('writer 0'), evaluate('goto 1 1'), evaluate('waits 1'), evaluate('quit'), evaluate(''), evaluate('dance'),
                  evaluate('threads\n'), evaluate('back 2'), evaluate('way'), 'evaluate', 'terminate', 'threads'),
}

def drawn_requests(words, threads, count):
    """Requests that numbers draw: `words` answers a number below another."""
    def some(most): return (0, 1, 2, 3, words(most + 1), words(most + 1))[words(6)]
    def name(): return ('f0', 'f1', '0', '1', 'none')[words(5)]
    def place(): return hex(20 + words(200)), (0, 0, 1, -1)[words(4)]
    def bytes_named(): return 'write %d %d' % ((0, 4, 60, 64)[words(4)], (0, 1, 4, 8)[words(4)])
    def row():
        kind, id = words(20), words(threads + 2)
        if kind < 8: return move(('next', 'stepIn', 'stepOut', 'continue', 'continue', 'stepBack', 'reverseContinue', 'pause')[kind], id)
        if kind == 8: return stack(id, startFrame=some(3), levels=some(3))
        if kind == 9: return at_functions(*[name() for _ in range(words(3))])
        if kind == 10: return at_bytes(*[bytes_named() for _ in range(words(3))])
        if kind == 11: return at_instructions(*[place() for _ in range(words(4))])
        if kind == 12: return memory(some(70) - 1, some(70))
        if kind == 13: return 'threads'
        if kind < 16: return all_of('scopes', some(40))[0]
        if kind < 18: return all_of('variables', some(120))[0]
        return evaluate(('threads', 'way', 'back %d' % some(9), 'event %d' % id, 'goto %d %d' % (id, some(4)), 'break 0 %d' % some(6), 'delete', bytes_named(), 'writer 0', 'reverse', 'watch 0 4', 'continue')[words(12)])
    return [row() for _ in range(count)] + [evaluate('threads')]
