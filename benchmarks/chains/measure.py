#!/usr/bin/env python3
"""Measures the cost of a chain's moves, of its linearization witness, and of the witness's check.

  measure.py PROGRAM      PROGRAM as crates/craq_lab/out/craq_lab

Plays runs of 1,000 to 100,000 moves on three nodes: without a last line `explain`, with it, and
drawn with choices of 0. The last plays the same lines, then explains the run and checks the
witness. Prints the CPU time of each part. On a terminal a line on standard error shows the
progress.
"""
import resource
import subprocess
import sys
import tempfile

KEYS = 50
MOST_CHOICES = 50000  # a command line's word has a limited length


def script(moves, per_put):
    """Returns the lines of a run of `moves` moves, one in PER_PUT of them a put."""
    lines, sent, put = [], 0, 0
    while len(lines) < moves:
        put += 1
        key = f'k{put % KEYS}'
        lines += [f'put 1 1 {put} {key} value', f'read 1 strong {key}']
        # 1: the entry to node 2; 2 and 3: the query to the tail and its reply; 4 to 6: the entry
        # and two acknowledgements
        lines += [f'deliver {sent + n}' for n in (2, 3, 1, 4, 5, 6)]
        sent += 6
        modes = ('strong', 'eventual', 'bounded:2')
        lines += [f'read {1 + n % 3} {modes[n // 3 % 3]} k{(put + n) % KEYS}' for n in range(per_put - 8)]
    return lines[:moves]


def seconds(words, lines=()):
    """Returns the CPU time of a program that reads these lines."""
    before = resource.getrusage(resource.RUSAGE_CHILDREN).ru_utime
    text = ''.join(line + '\n' for line in lines)
    done = subprocess.run(words, input=text.encode(), stdout=subprocess.PIPE, check=True)
    assert b'refused' not in done.stdout and b'false' not in done.stdout
    return resource.getrusage(resource.RUSAGE_CHILDREN).ru_utime - before


def checked(program, lines):
    """Returns the CPU time of the lines when the run is explained and checked too."""
    with tempfile.NamedTemporaryFile('w', suffix='.script') as file:
        file.write(''.join(line + '\n' for line in lines))
        file.flush()
        return seconds([program, 'draw', file.name, ','.join('0' for _ in lines)])


def tell(text):
    """Shows the progress on standard error, if that is a terminal."""
    if sys.stderr.isatty():
        sys.stderr.write(f'\r{text:40}\r')
        sys.stderr.flush()


def main():
    program = sys.argv[1]
    for per_put, counts in ((100, (1000, 10000, 50000, 100000)), (20, (1000, 10000, 50000, 100000)),
                            (8, (1000, 10000))):
        for moves in counts:
            tell(f'{moves} moves, one put in {per_put}')
            lines = script(moves, per_put)
            play = seconds([program, 'play'], lines)
            both = seconds([program, 'play'], lines + ['explain'])
            check = f'{checked(program, lines) - both:.3f} s' if moves <= MOST_CHOICES else 'not measured'
            print(f'{moves} moves, one put in {per_put}: played {play:.3f} s, explained {both - play:.3f} s, '
                  f'checked {check}', flush=True)


if __name__ == '__main__':
    main()
