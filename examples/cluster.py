"""Figures of a feed on a cluster: python examples/cluster.py FEED [SCHEDULER]

The feed, one sheet a line, is cut at line ends into pieces of about a megabyte. Each worker of a Dask cluster reads its pieces where it is, by the feed's name, so that
name has to mean the same file on all machines; only the tallies travel, 136 bytes each. They are added up as they come, in whatever order that is: that order and
grouping do not matter is proved (Ask 13). A piece of a worker that is lost is read again by another; its tally comes once.
"""
import os
import sys

from distributed import Client, as_completed

import lorukinde

PIECE_BYTES = 1 << 20


def pieces(name, size=PIECE_BYTES):
    """From where to where each piece goes; it ends after a byte 10, or with the feed."""
    end = os.path.getsize(name)
    begin = 0
    with open(name, "rb") as feed:
        while begin < end:
            feed.seek(min(begin + size, end) - 1)
            feed.readline()
            yield begin, feed.tell()
            begin = feed.tell()


def tally_of(name, begin, end):
    """The tally of one piece, where a worker has it."""
    with open(name, "rb") as feed:
        feed.seek(begin)
        tally = lorukinde.Tally()
        tally.add(lorukinde.read_feed(feed.read(end - begin)))
    return tally


def tallies_on(client, name, size=PIECE_BYTES):
    """The tallies of all pieces, as they come."""
    begins, ends = zip(*pieces(name, size)) if os.path.getsize(name) else ((), ())
    futures = client.map(tally_of, [name] * len(begins), begins, ends)
    return (tally for _, tally in as_completed(futures, with_results=True))


if __name__ == "__main__":
    with Client(*sys.argv[2:3]) as cluster:  # without a scheduler's address, workers on this machine
        print(sum(tallies_on(cluster, os.path.abspath(sys.argv[1])), lorukinde.Tally()))
