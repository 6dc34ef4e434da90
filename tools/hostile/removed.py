"""A node that is removed from a store without journals lets its objects go.

In each way of serving a chain is filled with some MiB of objects. Then its members are replaced
many times: the head, the middle or the tail by turns stops, is removed, and another node joins,
which comes to hold all objects. The memory of the process does not grow by what was held by those
that went. The process has as many threads as before.
"""
from tools.hostile import changing
from tools.hostile.asked import example

OBJECTS, VALUE, ATONCE = 2_000, b"v" * 4_000, 8
# After how many turns the memory counts, how many there are, and how many MiB more there may be in
# one of the rest: where nodes stay these 20 turns add 160. What comes and goes between two turns is
# up to 20.
FIRST, TURNS, GROWTH = 10, 30, 48
# Seconds that a node that joined may take to hold all objects.
COPIED = 60


def key(at):
    return f"object-{at}"


def fill(client):
    """Writes each object once."""
    for begin in range(0, OBJECTS, ATONCE):
        client.many([client.asks_put(key(at), VALUE) for at in range(begin, begin + ATONCE)])


def replaced(checks, store, client, turn):
    """Replaces a member, and checks that the new one answers with what it has to hold."""
    place = turn % 3
    checks.same("what comes of a stop", store.stops(0, place), "done")
    checks.same("what comes of a removal and a join", store.replaces(0, place), ("done", "done"))
    client.chains = client.status()
    checks.same(f"the members after {turn + 1} turns", client.members(0), store.members[0])
    at = turn * 61 % OBJECTS
    told = client.ask_again(lambda: client.asks_read(key(at), node=store.members[0][-1]), True)
    checks.same("what a node that joined holds", told, example.Read(1, VALUE))


def replaces_all(checks, program):
    """Replaces the members of a store, and returns what was seen, in words."""
    store = changing.Changing(program, 1, changing.USUAL, journals=False)
    try:
        client = changing.Insistent(store.address, 1, COPIED)
        empty, threads = store.memory(), store.threads()
        fill(client)
        filled, memory = store.memory(), []
        for turn in range(TURNS):
            replaced(checks, store, client, turn)
            memory.append(store.memory())
        checks.that(max(memory[FIRST:]) <= max(memory[:FIRST]) + GROWTH,
                    f"nodes that were removed let their objects go: {max(memory[:FIRST]):.0f} MiB in {FIRST} "
                    f"turns, {max(memory[FIRST:]):.0f} afterwards")
        checks.same(f"threads after {TURNS} removals and joins", store.threads(), threads)
        checks.that(filled - empty >= OBJECTS * len(VALUE) * 3 / 2**20,
                    f"{filled - empty:.0f} MiB are added by what three nodes hold")
        client.close()
        checks.same("how the store ends", store.ends(), (0, [], ""))
        return (f"{TURNS} removals of nodes that held {OBJECTS * len(VALUE) / 2**20:.0f} MiB: {filled:.0f} "
                f"MiB "
                f"before, {memory[FIRST - 1]:.0f} after {FIRST} and {memory[-1]:.0f} after all")
    finally:
        store.kill()


def tried(checks):
    """Replaces members in each way of serving, and returns what was tried, in words."""
    return changing.used(checks, lambda program: replaces_all(checks, program))
