"""Tries the vectors of examples/vectors.txt by the programs: datagrams and lines of schedules by `replay`, ops by a run of `replay` with one
replica, histories by `kv_linearize`, and the summary of `gen`.

    tried.py NOPAXOS KV_LINEARIZE

A datagram is given as junk, which a schedule takes exactly where the bytes spell no datagram (rule 9). It says each vector whose answer is
another one, then how many were tried and how many differ."""
import re, subprocess, sys

nopaxos, judge = sys.argv[1:]
HEADER = 'nopaxos 3 replicas 3 sequencers 2 clients 2 controllers 1 observers 1'


def said(words, text):
    ran = subprocess.run(words, input=text, capture_output=True, timeout=60)
    return ran.stdout.decode()


def bytes_of(spelled):
    """Hexadecimal, where `ff*3` is ffffff and `-` is nothing."""
    parts = re.findall(r'([0-9a-f]+)(?:\*([0-9]+))?', spelled.replace('-', ''))
    return ''.join(digits * int(times or 1) for digits, times in parts)


def text_of(spelled):
    """Texts in quotes, where "x"*3 is xxx."""
    parts = re.findall(r'"((?:[^"\\]|\\.)*)"(?:\*([0-9]+))?', spelled)
    return ''.join(text.encode().decode('unicode_escape') * int(times or 1) for text, times in parts)


def fault_of(schedule, line):
    """The rule that this line of a schedule breaks, or ok."""
    told = re.search(r'^error line ([0-9]+) rule ([0-9])( index [0-9]+ sent [0-9]+)?$', said([nopaxos, 'replay'], schedule.encode()), re.M)
    if not told:
        return 'ok'
    return f'rule {told[2]}' if int(told[1]) == line else told[0]


def datagram(name, spelled):
    return {'rule 9': 'ok', 'ok': 'refused'}.get(fault_of(f'{HEADER}\njunk r0 {bytes_of(spelled) or "-"}\n', 2), 'neither')


def line(name, spelled):
    if name == 'line 1':
        return fault_of(text_of(spelled) + '\n', 1)
    return fault_of(text_of(name.removeprefix('line 2 behind ')) + '\n' + text_of(spelled) + '\n', 2)


def results(ops):
    """What one client is answered, whose requests reach the one replica in their order."""
    lines = ['nopaxos 1 replicas 1 sequencers 1 clients 1']
    for at, op in enumerate(ops):
        lines += [f'submit c0 {op or "-"}', f'deliver {3 * at} s0', f'deliver {3 * at + 1} r0', f'deliver {3 * at + 2} c0']
    told = said([nopaxos, 'replay'], ('\n'.join(lines) + '\n').encode())
    return [bytes.fromhex(it).decode() for it in re.findall(r'^accept c0 [0-9]+ ([0-9a-f]+)$', told, re.M)]


def order(spelled):
    lines = ['transcript 1 replicas 3 sequencers 1 clients 2', *([] if spelled == 'no line' else spelled.split('; ')), 'end']
    return said([judge], ('\n'.join(lines) + '\n').encode()).splitlines()


tried = wrong = 0


def compare(name, found, wanted):
    global tried, wrong
    tried += 1
    if found != wanted:
        wrong += 1
        print(f'{name}: {found} and not {wanted}')


vectors = [it.rstrip('\n').split(' | ') for it in open('examples/vectors.txt', encoding='utf-8') if not it.startswith('#')]
for group, name, spelled, answer in vectors:
    if group == 'datagram':
        compare(f'{group} {name}', datagram(name, spelled), 'ok' if answer == 'ok' else 'refused')
    elif group == 'line':
        compare(f'{group} {name} {spelled[:60]}', line(name, spelled), answer)
    elif group == 'order':
        compare(f'{group} {name}', '; '.join(order(name if name == 'no line' else spelled)), answer)
    elif group == 'gen' and answer.startswith('gen '):
        compare(f'{group} {name}', said([nopaxos, *spelled.split()], b'').splitlines(), answer.split('; '))
ops = [it for it in vectors if it[0] == 'op']
for it, found in zip(ops, results([bytes_of(spelled) for _, _, spelled, _ in ops])):
    compare(f'op {it[1]}', found, text_of(it[3]) if it[3].startswith('"') else it[3])
compare('ops that are answered', len(results([bytes_of(it[2]) for it in ops])), len(ops))
print(f'{tried} tried, {wrong} differ')
