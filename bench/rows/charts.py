"""Charts of logs, by the model: from the lines of a listing by threads."""

HEAD = '<svg xmlns="http://www.w3.org/2000/svg" font-family="monospace" font-size="12" width="%d" height="%d">\n'
PAPER = '<rect width="100%" height="100%" fill="white"/>\n'
ARROW_HEAD = ('<defs><marker id="head" markerWidth="9" markerHeight="8" refX="14" refY="4" orient="auto"><path d="M0,0 L9,4 L0,8 Z" '
              'fill="steelblue"/></marker></defs>\n<style>text{stroke:white;stroke-width:3px;paint-order:stroke}</style>\n')
EMPTY = HEAD % (120, 40) + PAPER + '<text x="20" y="24">no pieces</text>\n</svg>\n'

def accesses(listing):
    """Of each access that is known its thread and its place: each object, its version and read total, and whether it wrote."""
    known = {}
    for line in listing.split('\n'):
        words = line.split(' ')
        if len(words) < 2 or words[1] not in ('access', 'woken', 'timedout'): continue
        found = []
        for word in words[2:]:
            number, version = word[1:].split('@')
            version, _, reads = version.partition('/')
            found.append((int(number), int(version), int(reads or 0), word[0] == 'w'))
        known[tuple(map(int, words[0].split('.')))] = found
    return known

def in_order(known):
    """The accesses that can be put one behind the other: in rounds each thread goes on as far as it can."""
    rows, places, counts = [], {}, {}
    def goes(found): return all(counts.get(o, (0, 0)) == (v, r) if w else counts.get(o, (0, 0))[0] == v for o, v, r, w in found)
    while True:
        before = len(rows)
        for thread in range(16):
            while (thread, places.get(thread, 0)) in known:
                at = thread, places.get(thread, 0)
                if not goes(known[at]): break
                for o, v, r, w in known[at]: counts[o] = (v + 1, 0) if w else (v, counts.get(o, (0, 0))[1] + 1)
                rows.append(at)
                places[thread] = at[1] + 1
        if len(rows) == before: return rows

def x(thread): return 20 + 200 * thread
def y(line): return 50 + 20 * line

def chart(listing, only=(), since=None, to=None):
    known = accesses(listing)
    rows = in_order(known)
    first = 0 if since is None else rows.index(since) if since in rows else len(rows)
    last = rows.index(to) if to in rows else len(rows)
    drawn = [at for n, at in enumerate(rows) if first <= n <= last and (not only or any(o in only for o, _, _, _ in known[at]))]
    line_of = {at: n for n, at in enumerate(drawn)}
    makers, knew, dots, arrows = {}, {}, '', ''
    for at in rows:
        thread, line = at[0], line_of.get(at)
        words, unread = [], False
        for o, v, _, w in known[at]:
            lost = w and v > 0 and thread not in knew.get((o, v), ())
            unread = unread or lost
            words.append('%s %d@%d%s' % ('write' if w else 'read', o, v + w, ' <tspan fill="red">unread</tspan>' if lost else ''))
            maker = makers.get((o, v))
            if line is not None and maker in line_of and maker[0] != thread:
                arrows += '<line x1="%d" y1="%d" x2="%d" y2="%d" stroke="steelblue" marker-end="url(#head)"/>\n' % (x(maker[0]), y(line_of[maker]), x(thread), y(line))
        for o, v, _, w in known[at]:
            knew.setdefault((o, v + w), set()).add(thread)
            if w: makers[o, v + 1] = at
        if line is None: continue
        writes = any(w for _, _, _, w in known[at])
        inside, edge = ('red', 'red') if unread else ('black', 'black') if writes else ('white', 'black')
        dots += '<circle cx="%d" cy="%d" r="4" fill="%s" stroke="%s"/>\n' % (x(thread), y(line), inside, edge)
        dots += '<text x="%d" y="%d">%d.%d %s</text>\n' % (x(thread) + 18, y(line) + 4, *at, ', '.join(words))
    columns = max((thread for thread, _ in drawn), default=-1) + 1
    out = (HEAD[:-2] % (200 * columns + 240, y(len(drawn)) + 40)) + '>\n' + ARROW_HEAD + PAPER
    for thread in range(columns):
        out += '<line x1="%d" y1="30" x2="%d" y2="%d" stroke="lightgray"/>\n<text x="%d" y="20">thread %d</text>\n' % (x(thread), x(thread), y(len(drawn)), x(thread), thread)
    out += arrows + dots
    if not drawn: out += '<text x="20" y="54">no accesses</text>\n'
    more = len(known) - len(rows)
    if more: out += '<text x="10" y="%d" fill="gray">%d more accesses: what they met is not known</text>\n' % (y(len(drawn)) + 24, more)
    return out + '</svg>\n'
