"""Listings by object, by the model: from the lines of a listing by threads."""

def which(number, block):
    if number == 0: return 'length'
    first = (number - 1) // 2 * block
    return '%s %d..%d' % ('bytes' if number % 2 else 'waiters', first, first + block - 1)

def touches(listing):
    """Of each line of an access its thread, its place, and each touch: the object, the version that it read or made, and whether it wrote."""
    for line in listing.split('\n'):
        words = line.split(' ')
        if len(words) < 2 or words[1] not in ('access', 'woken', 'timedout'): continue
        thread, place = map(int, words[0].split('.'))
        for word in words[2:]:
            number, version = word[1:].split('@')
            yield int(number), int(version.split('/')[0]) + (word[0] == 'w'), word[0] == 'w', thread, place

def by_object(listing, only=(), shared=False):
    key = listing.split('\n')[0].split(':')
    block = int(key[2]) if len(key) > 2 else 64
    objects = {}
    for number, version, writes, thread, place in touches(listing):
        objects.setdefault(number, {}).setdefault(version, ([], []))[0 if writes else 1].append((thread, place))
    out = ''
    for number, versions in sorted(objects.items()):
        threads = {thread for writes, reads in versions.values() for thread, _ in writes + reads}
        if only and number not in only or shared and not (len(threads) > 1 and any(writes for writes, _ in versions.values())): continue
        out += 'object %d: %s\n' % (number, which(number, block))
        for version, (writes, reads) in sorted(versions.items()):
            before = versions.get(version - 1, ([], []))
            knew = {thread for thread, _ in before[0] + before[1]}
            line = '%d@%d' % (number, version)
            for thread, place in writes: line += ' written by %d.%d%s' % (thread, place, '' if version == 1 or thread in knew else ' unread')
            if not writes and version: line += ' write unknown'
            if reads: line += ' read by' + ''.join(' %d.%d' % at for at in reads)
            out += line + '\n'
    return out
