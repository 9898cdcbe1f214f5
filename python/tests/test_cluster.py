"""examples/cluster.py on a local cluster, with a worker that is killed on the way."""
import importlib.util
import os
import signal

import lorukinde
from conftest import ROOT
from sheets import listed

SPEC = importlib.util.spec_from_file_location("cluster", ROOT / "examples" / "cluster.py")
cluster = importlib.util.module_from_spec(SPEC)
SPEC.loader.exec_module(cluster)


def test_pieces_are_the_feed(tmp_path):
    for text in (b"", b"Mo", b"Mo\n", b"\n\n\n", b"\n".join(listed())):
        name = tmp_path / "feed"
        name.write_bytes(text)
        for size in (1, 7, 100, 1 << 20):
            cut = [text[begin:end] for begin, end in cluster.pieces(name, size)]
            assert b"".join(cut) == text
            assert all(piece.endswith(b"\n") for piece in cut[:-1]) and all(cut)


def test_the_same_figures_with_a_worker_killed(tmp_path):
    import dask
    from distributed import Client, LocalCluster

    feed = b"\n".join(listed())
    name = tmp_path / "feed"
    name.write_bytes(feed)
    alone = lorukinde.Tally()
    alone.add(lorukinde.read_feed(feed))
    # By an emulator workers take their time to begin, and one whose frames were looked at by Dask's profiler has crashed.
    slow = {"distributed.worker.profile.enabled": False, "distributed.comm.timeouts.connect": "600s", "distributed.comm.timeouts.tcp": "600s"}
    with dask.config.set(slow), LocalCluster(n_workers=2, threads_per_worker=1, dashboard_address=None) as local, Client(local) as client:
        victim = min(client.run(os.getpid).values())
        coming = cluster.tallies_on(client, str(name), size=1 << 10)
        first = next(coming)
        os.kill(victim, signal.SIGKILL)
        rest = list(coming)
        assert victim not in client.run(os.getpid).values()
    assert len(rest) > 10  # so that the worker was killed on the way
    assert sum([first, *rest]) == alone
    assert alone.read == feed.count(b"\n") + 1
