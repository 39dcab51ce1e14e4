"""Judges what clients of bench/observed.sh asked and were answered: the lines of clients.rs, on standard input.

    judge.py KEYS

It knows the promises alone, no message between replicas. There has to be one order of the puts in slots, and each answer of an observer
has to be what the puts in the slots up to its position make:

- A writer's puts are executed by their numbers, each once: so each is answered with the value of the one before at its key, and a state
  has the puts of a writer up to some number, which rises with the position. The values of its keys tell bounds of that number.
- A put that was accepted at a slot is in each state from there on. One that was sent once, in a session in which some put had been
  accepted before, stands at no other slot before: it is in no state below.
- Of two puts, where one was accepted before the other one began, the one has the smaller slot; and each state with the other has the one.
- No answer has a put that began after it came.
- Where an answer of an observer came before another read of it was asked, by any client, the position of that is no less.

Each fault is told with the lines' words. The last line tells how much was judged; `shows` are the puts that are still missing at the
last position of each observer, of those that were accepted. The status is 1 where there is a fault.
"""

import bisect
import collections
import sys

Put = collections.namedtuple("Put", "writer number began ended sent session slot before")
Read = collections.namedtuple("Read", "observer reader began ended position writer key number")


def numbers(fields):
    return [None if field == "-" else int(field) for field in fields]


def taken(source):
    """The puts of each writer, by number, and the reads in which nothing but numbers came; what else came."""
    puts, reads, faults = collections.defaultdict(list), [], []
    for line in source:
        kind, *fields = line.split()
        if fields[-1] == "bad":
            faults.append(f"no put wrote this: {line.strip()}")
        elif kind == "put":
            puts[int(fields[0])].append(Put(*numbers(fields)))
        else:
            reads.append(Read(*numbers(fields)))
    return puts, reads, faults


def bounds(read, keys):
    """The least and the greatest number of puts that a state has whose answer this is; nothing where there is none."""
    if read.number == 0:
        first = read.key if read.key else keys
        return (0, first - 1) if read.key < keys else (0, sys.maxsize)
    return (read.number, read.number + keys - 1) if read.key < keys and read.number % keys == read.key else None


def replies(puts, keys):
    """Each writer's answers, and the slots of all."""
    for writer in puts:
        for place, put in enumerate(puts[writer], 1):
            if put.number != place:
                yield f"a put is missing before {put}"
            if put.ended is not None and put.before != max(0, put.number - keys):
                yield f"the value before is another: {put}"
    accepted = sorted((put for each in puts.values() for put in each if put.ended is not None), key=lambda put: put.slot)
    latest = None
    for last, put in zip([None, *accepted], accepted):
        if last and last.slot == put.slot:
            yield f"one slot for {last} and {put}"
        if latest and put.ended < latest.began:
            yield f"the slot is behind that of a put which began later: {put}, {latest}"
        if latest is None or put.began > latest.began:
            latest = put


def once(puts):
    """The accepted puts that stand at no slot before their own."""
    accepted = sorted((put for each in puts.values() for put in each if put.ended is not None), key=lambda put: put.ended)
    began = {}
    for put in accepted:
        began.setdefault(put.session, put.ended)
    return [put for put in accepted if put.sent == 1 and began[put.session] < put.began]


def states(puts, reads, keys):
    """Whether each writer's puts in the states rise with the positions."""
    ended = {writer: [put.ended for put in each if put.ended is not None] for writer, each in puts.items()}
    # of each writer: a position, the least and the greatest number of its puts there, and why
    known = collections.defaultdict(list)
    for read in reads:
        found = bounds(read, keys)
        if found is None:
            yield f"the value is of another key: {read}"
            continue
        known[read.writer].append((read.position, *found, read))
        if read.number == 0:
            continue
        if read.number > len(puts[read.writer]):
            yield f"a put that was not begun: {read}"
            continue
        put = puts[read.writer][read.number - 1]
        if put.began > read.ended:
            yield f"a put that began after the answer: {read}, {put}"
        for writer in puts:
            known[writer].append((read.position, bisect.bisect_left(ended[writer], put.began), sys.maxsize, (read, put)))
    for each in puts.values():
        for put in each:
            if put.ended is not None:
                known[put.writer].append((put.slot, put.number, sys.maxsize, put))
    for put in once(puts):
        known[put.writer].append((put.slot - 1, 0, put.number - 1, put))
    for writer in known:
        least, why = 0, None
        at = collections.defaultdict(list)
        for entry in known[writer]:
            at[entry[0]].append(entry)
        for position in sorted(at):
            for _, low, _, reason in at[position]:
                if low > least:
                    least, why = low, reason
            for _, _, high, reason in at[position]:
                if high < least:
                    yield f"at position {position}, of writer {writer} at most {high} puts: {reason}; and at least {least}: {why}"


def positions(reads):
    """Whether those of each observer rise with the time."""
    for observer in sorted({read.observer for read in reads}):
        own = [read for read in reads if read.observer == observer]
        by_end, by_begin = sorted(own, key=lambda read: read.ended), sorted(own, key=lambda read: read.began)
        place, highest = 0, None
        for read in by_begin:
            while by_end[place].ended < read.began:
                if highest is None or by_end[place].position > highest.position:
                    highest = by_end[place]
                place += 1
            if highest is not None and highest.position > read.position:
                yield f"the position fell: {read}, after {highest}"


def main():
    keys = int(sys.argv[1])
    puts, reads, faults = taken(sys.stdin)
    for found in (replies(puts, keys), states(puts, reads, keys), positions(reads)):
        faults += found
    for fault in faults[:20]:
        print(fault)
    all_puts = [put for each in puts.values() for put in each]
    accepted = [put for put in all_puts if put.ended is not None]
    missing = []
    for observer in sorted({read.observer for read in reads}):
        last = max(read.position for read in reads if read.observer == observer)
        missing.append(str(sum(put.slot > last for put in accepted)))
    distinct = len({(read.observer, read.position) for read in reads})
    print(
        f"puts {len(all_puts)} accepted {len(accepted)} exact {len(once(puts))} retried {sum(put.sent > 1 for put in all_puts)}"
        f" sessions {len({put.session for put in accepted})} reads {len(reads)} positions {distinct}"
        f" missing {' '.join(missing) or '-'} faults {len(faults)}"
    )
    sys.exit(1 if faults else 0)


main()
