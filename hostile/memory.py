#!/usr/bin/env python3
"""Runs each worked example with its calls for memory refused: the nth and all after it, and the nth
alone, for each n in turn.

A run in which memory stays away must end with status 6, print whole lines alone which are a front
of the example's, and leave each file that is saved whole or as before. One in which a single call
is refused must do so, or do without and end as the example does: the standard library's `collect`
first asks for more than it needs.

  python3 hostile/memory.py      after 'rt run' in crates/ssz_cli, which builds the program; SSZ=FILE names another
"""
from rows import rows
from runs import BEFORE, Place, Tally, is_front, words_of


def refuse(place, tally, row, how, number):
    """Whether the run did without the call that was refused."""
    place.give(row)
    status, said = place.run(row.words, **{how: number})
    held = {name: place.held(name) for name in row.saved}
    kept = all(held[name] in (BEFORE, data) for name, data in row.saved.items())
    without = how == "memory" and (status, said, held) == (row.status, row.text(), row.saved)
    good = without or status == 6 and is_front(said, row.text()) and kept
    tally.check("%s, %s %d" % (row.name, how, number), good, (status, said, kept))
    return without


def main():
    place, tally, without = Place(), Tally(), 0
    for row in rows():
        place.give(row)
        ended, (asked, _, _) = place.counts(row.words)
        whole = all(place.held(name) == data for name, data in row.saved.items())
        tally.check(row.name, ended == (row.status, row.text()) and whole, ended)
        for how in "scarce", "memory":
            for number in range(1, asked + 1):
                without += refuse(place, tally, row, how, number)
        print("%-22s %5d calls for memory" % (row.name, asked), flush=True)
    print("%d runs did without the one call that was refused" % without)
    tally.end()


if __name__ == "__main__":
    words_of(__doc__)
    main()
