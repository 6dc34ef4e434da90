"""Prints the rates of the two programs, each at its least time, and their ratio."""
import sys

count = int(sys.argv[1])
least = {}
for line in sys.stdin:
    program, message, nanos, same = line.split()
    if int(same) != count:
        sys.exit(f'{program} {message}: {same} of {count} messages are the same again')
    times = least.setdefault(message, {})
    times[program] = min(int(nanos), times.get(program, int(nanos)))
for message, times in least.items():
    rates = {program: count * 10**9 / nanos for program, nanos in times.items()}
    print(
        f"{message}: proved {rates['proved']:,.0f} a second, plain {rates['plain']:,.0f} a second, "
        f"ratio {rates['proved'] / rates['plain']:.2f}"
    )
