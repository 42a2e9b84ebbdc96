#!/usr/bin/env python3
"""Makes the recordings of this folder: files of words, two bytes each, low byte first.

usage: make.py               writes every sample beside this script
       make.py session N     writes a session of N words to standard output, for measurements
A word of 0 to 255 is one byte on the line, 256 a silence. Characters travel in even parity.
"""
import os, random, struct, sys

SILENCE = 256

def parity(c):
    return c | (bin(c).count('1') % 2) << 7

def line(text):
    return [parity(ord(c)) for c in text]

def pack(words):
    return b''.join(struct.pack('<H', w) for w in words)

# document 01, "Bench cases": what is sent in each case, in order
CASES = {
    'a': ['L7??*'], 'b': ['L07M?*'], 'c': ['L7m+*'], 'd': ['L7M+*'], 'e': ['L7m#00231*', 'L7mI*'],
    'f': ['L7J#00126*'], 'g': ['L7m#00230*'], 'h': ['L7m#10031*'], 'i': ['L7J#00006*'], 'j': ['L7mI*'],
    'k': ['L7m#00301*', 'L8??*', 'L7mI*'], 'l': ['L7Z?*'], 'm': ['L7m#00304*', 'L0??*', 'L007M?*'],
    'n': ['L7m+*'], 'o': ['L7Z#00150*'],
}

def damage():
    """Every way in which the line spoils a message, one after the other, with sound messages between."""
    words = []
    words += line('xyz') + line('L7??*')                        # noise before a message
    spoiled = line('L7M?*'); spoiled[2] ^= 0x80                 # an identifier in bad parity drops the message
    words += spoiled + line('L7M?*')
    words += [ord('L')] + line('7M?*') + line('L7M?*')          # `L` in bad parity opens nothing
    words += line('L7m#0') + [SILENCE] + line('0231*')          # a silence inside a message
    words += [SILENCE, SILENCE] + line('L7m#00231*')            # silences between messages
    words += line('L7m#0023111*') + line('L7mI*')               # an eleventh character drops the message
    words += line('L07m#00231L7??*') + line('L7mI*')            # and an eleventh `L` opens nothing
    words += line('L7L?*') + line('R7R+*')                      # `L` and `R` are identifiers too
    words += line('L7M?') + [ord('*')] + line('L7M?*')      # `*` in bad parity closes nothing
    words += line('L7M?*L7M02311A*') + line('L7m+*L7m00251A*')  # replies of the card are no messages
    words += line('L7J#00006*') + line('L7J#00126*')            # minus zero, and a number below zero
    words += line('L007M?*L0??*L7m#00304*L7?I*')                # not well formed
    return words

def zeros():
    """Zero and minus zero (0000 with code 5 to 8), which are two messages since request 5."""
    words = []
    for code in '01235678':                                     # each count of decimals
        words += line('L7m#0000%s*' % code)
    for to in ('L7J', 'L07Z', 'L7M', 'L7a', 'L7]', 'L8m', 'R12J'): # other rows, no row, `]`, other cards
        words += line(to + '#00000*' + to + '#00005*' + to + '#00001*' + to + '#00006*')
    words += line('L7J#00006*L7JI*L7J?*')                       # revision 1 stores it as zero, revision 2 refuses it
    words += line('L7m#00301*L7m#00006*L7mI*')                  # and the offer before it is gone
    words += line('L7J#00016*L7J#00011*')                       # the numbers next to zero
    words += line('L7m#00004*L7m#00009*')                       # not well formed
    words += line('L7m#0000') + [SILENCE] + line('6*')          # a silence inside
    spoiled = line('L7m#00006*'); spoiled[8] ^= 0x80            # its code in bad parity
    words += spoiled + line('L7m#00006*')
    return words

def session(n, seed=7):
    """A master that polls, changes and stores, the card's replies between, and now and then damage."""
    r = random.Random(seed)
    words = []
    while len(words) < n:
        kind = r.randrange(20)
        to = r.choice(['L7', 'L7', 'L07', 'R12', 'L8'])
        if kind < 9:
            words += line(to + r.choice('MJmZ') + '?*') + line('L7M%04d1A*' % r.randrange(10000))
        elif kind < 13:
            words += line(to + r.choice('Jm') + r.choice('+-') + '*')
        elif kind < 16:
            words += line(to + 'm#%04d1*' % r.randrange(1001)) + line('L7m00201I*') + line(to + 'mI*')
        elif kind == 16:
            words += line('L7??*') + line('L7?A*')
        elif kind == 17:
            words += [SILENCE] * r.randrange(1, 4)
        elif kind == 18:
            spoiled = line(to + 'M?*'); spoiled[r.randrange(len(spoiled))] ^= 1 << r.randrange(8)
            words += spoiled
        else:
            words += [r.randrange(257) for _ in range(r.randrange(1, 12))]
    return words[:n]

# collection/: what is sent in each, in order
COLLECTION = {
    # what the old emulator got wrong
    'rounding': ['L7m#00231*', 'L7mI*', 'L7m?*', 'L7m#00491*', 'L7mI*', 'L7m?*'],
    'negatives': ['L7J#00126*', 'L7JI*', 'L7J?*', 'L7J#00016*', 'L7JI*', 'L7J?*', 'L7J#00996*', 'L7J-*'],
    'offer-used-twice': ['L7m#00301*', 'L7mI*', 'L7m+*', 'L7mI*', 'L7m?*'],
    'letter-inside': ['L7L?*', 'L7R?*', 'R7L?*', 'L7ML7M?*', 'L7?L7??*', 'L7L?*'],
    'range-before-cut': ['L7m#10031*', 'L7m#10001*', 'L7mI*', 'L7J#01026*'],
    'decimals': ['L7m#00230*', 'L7m#00232*', 'L7m#02302*', 'L7m#00231*', 'L7mI*'],
    # other cards and other instruments
    'neighbours': ['L7m#00301*', 'L8??*', 'R7mI*', 'L8m#00501*', 'L7mI*', 'L8mI*'],
    'controller': ['L7??*', 'L7]?*', 'L7S#04501*', 'L7SI*', 'L7J#00305*', 'L7JI*', 'L7]?*', 'L7M+*', 'L7Z#00030*', 'L7ZI*', 'L7Z?*', 'L7B+*'],
    'programmer': ['R7??*', 'R7A?*', 'R7A#00170*', 'R7A#00160*', 'R7AI*', 'R7A+*', 'R7C#01302*', 'R7CI*', 'R7]?*', 'L7A?*', 'R7`?*'],
    'indicator': ['L7]?*', 'L7C#10096*', 'L7CI*', 'L7C-*', 'L7G#00001*', 'L7Z#00150*', 'L7ZI*', 'L7D-*', 'L7]+*'],
    'pair': ['L7m#00301*', 'R7m#00401*', 'L8m#00501*', 'R7m?*', 'R7mI*', 'L8mI*', 'L7mI*', 'L9??*', 'R8m?*'],
}

def main():
    if sys.argv[1:2] == ['session']:
        sys.stdout.buffer.write(pack(session(int(sys.argv[2]))))
        return
    here = os.path.dirname(os.path.abspath(__file__))
    files = {'case-%s.words' % k: [w for m in v for w in line(m)] for k, v in CASES.items()}
    files['bench-cases.words'] = [w for v in CASES.values() for m in v for w in line(m)]
    files['paper-example.words'] = line('xL07M?*L7m#00231*')
    files['damage.words'] = damage()
    files['zeros.words'] = zeros()
    files['session.words'] = session(6000)
    for name, messages in COLLECTION.items():
        files['collection/%s.words' % name] = [w for m in messages for w in line(m)]
    files['collection/session.words'] = session(1200, seed=11)
    for name, words in files.items():
        with open(os.path.join(here, name), 'wb') as f:
            f.write(pack(words))

if __name__ == '__main__':
    main()
