"""Eight agents on threads add to one count; their journal is checked and replayed.

    python3 example.py [JOURNAL]    writes the journal to the file
"""
import sys
import threading

from folugben import Agent, ConflictError, Storage, check, replay

AGENTS, TIMES = 8, 100


def work(agent: Agent, own: int) -> None:
    """Add 1 to the count this many times."""
    done = 0
    while done < TIMES:
        number, (count,) = agent.read([("count",)])
        move = [("put", ("count",), count + 1), ("put", ("own", own), done + 1), ("add", ("seen",), count)]
        try:
            fired = agent.fire(move, [(("count",), number)])
        except ConflictError:
            continue
        assert fired == count + 1
        done += 1


def main() -> None:
    with Storage({("count",): 0, ("seen",): frozenset()}, AGENTS * TIMES) as storage:
        agents = [storage.agent(k) for k in range(AGENTS)]
        threads = [threading.Thread(target=work, args=(agents[k], k)) for k in range(AGENTS)]
        for thread in threads:
            thread.start()
        for thread in threads:
            thread.join()
        locations = [("count",), *(("own", k) for k in range(AGENTS)), ("seen",)]
        with storage.agent(AGENTS) as reader:
            for agent in agents:
                reader.learn(agent)
            number, values = reader.read(locations)
        assert number == AGENTS * TIMES and values[0] == AGENTS * TIMES
        for agent in reversed(agents):
            assert agent.won == TIMES
            agent.give()
        journal = storage.close_journal()
    calls, moves = check(journal)
    assert moves == AGENTS * TIMES
    assert replay(journal) == list(zip(locations, values))
    print("legal", moves)
    if len(sys.argv) > 1:
        with open(sys.argv[1], "wb") as file:
            file.write(journal)


if __name__ == "__main__":
    main()
