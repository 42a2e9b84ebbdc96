#!/usr/bin/env python3
"""Makes the cases of this folder: NAME.in, the bytes of standard input, and NAME.out, what `list` must write for them.
The expected output is made here from document 01 and request 5 (the sign of zero is kept) by a regular expression, and not
by the program or its definitions.
It also writes the input and output that the gate runs the program on, crates/list/stdin and stdout.
"""
import os, re, sys
sys.dont_write_bytecode = True
here = os.path.dirname(os.path.abspath(__file__))
root = os.path.dirname(os.path.dirname(here))
sys.path.insert(0, os.path.join(root, 'samples'))
from make import line, pack, session, damage, zeros, SILENCE

WELL_FORMED = re.compile(r'([LR])(0?[1-9]|[1-9][0-9])(?:(\?)(\?)|([!-)+-/:->@-~])(\?|\+|-|I|#([0-9]{4})([0-35-8])))')

def expected(data):
    out, message, count = ['AT CARD ID KIND DATA'], None, 0
    for at in range(len(data) // 2):
        word = data[2 * at] + 256 * data[2 * at + 1]
        if word > 256:
            return out + ['BAD %d' % at]
        good = word < 256 and bin(word).count('1') % 2 == 0
        char = chr(word % 128)
        if message is None:
            message = char if good and char in 'LR' else None
        elif not good:
            message = None
        elif char == '*':
            m, message = WELL_FORMED.fullmatch(message), None
            if m:
                letter, address, _, status, name, body, digits, code = m.groups()
                name, body, data_column = (name, body[0], '-') if name else ('?', '?', '-')
                if digits:
                    data_column = digits + code
                out.append('%d %s%d %s %s %s' % (at, letter, int(address), name, body, data_column))
                count += 1
        else:
            message = message + char if len(message) < 10 else None
    return out + (['ODD'] if len(data) % 2 else ['END %d' % count])

def quiet(n):
    return [SILENCE] * n

example = pack(line('xL07M?*L7m#00231*'))
cases = {
    'example': example,
    'empty': b'',
    'odd': example + b'\xcc',
    'odd_only': b'\xcc',
    'bad': pack(line('xL07M?*') + [257] + line('L7m#00231*')),
    'bad_first': pack([0xFFFF]),
    'bad_before_odd': pack(line('L7??*') + [300]) + b'\x01',
    'bad_at_the_boundary': pack(quiet(4096) + [257]),
    'open_at_the_end': pack(line('L7??*L7M')),
    'damage': pack(damage()),
    'zeros': pack(zeros()),
    # a message of eleven words across the end of the first buffer, at each of its places
    **{'across_%02d' % k: pack(quiet(4096 - k) + line('L07m#00231*') + line('L7??*')) for k in range(12)},
    'one_buffer': pack(quiet(4091) + line('L7??*')),
    'two_buffers_odd': pack(quiet(4096 + 4091) + line('L7??*')) + b'\x00',
    'several_buffers': pack(session(20000, 11)),
    # as many lines as words allow: the output is longer than the output buffer several times over
    'dense': pack(line('L7??*') * 4000),
    'every_identifier': pack([w for c in range(128) for b in ('?', '+', '-', 'I', '#00126', '#00004') for w in line('R99' + chr(c) + b + '*')]),
    'every_address': pack([w for a in range(200) for w in line('L%d??*' % a) + line('L%02dM?*' % a)]),
    'every_code': pack([w for n in ('0000', '0001', '9999') for c in range(10) for w in line('L7m#%s%d*' % (n, c))]),
}

def write(path, data):
    with open(path, 'wb') as f:
        f.write(data)

def text(data):
    return ''.join(l + '\n' for l in expected(data)).encode('ascii')

for name, data in cases.items():
    write(os.path.join(here, name + '.in'), data)
    write(os.path.join(here, name + '.out'), text(data))

assert text(example) == b'AT CARD ID KIND DATA\n6 L7 M ? -\n16 L7 m # 00231\nEND 2\n'

# the gate's run: a message across the end of each of two buffers, minus zero behind the second, and a session around them; a
# silence before each message drops what the session leaves open
words = session(4096 - 5, 3) + quiet(1) + line('L07m#00231*')
words += session(8192 - 8 - len(words), 5) + quiet(1) + line('L7J#00126*L7J#00006*') + session(900, 9) + quiet(1) + line('L7??*')
write(os.path.join(root, 'crates/list/stdin'), pack(words))
write(os.path.join(root, 'crates/list/stdout'), text(pack(words)))
