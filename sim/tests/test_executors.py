"""Runs on executors of others: threads, and dask.distributed's local cluster, if that is installed (Debian: python3-distributed)."""
from __future__ import annotations

import importlib
import importlib.util
import unittest
from concurrent.futures import Executor, ThreadPoolExecutor
from typing import Any

from sim.exports import Numbers
from sim.keep import Store
from sim.models import choose
from sim.progress import Progress
from sim.runs import Job, jobs_of, repeated, run_jobs, work

from .support import scenario
from .test_repeats import SHORT


def jobs() -> list[Job]:
    """A few runs over models."""
    chosen = [choose("fifo"), choose("fq_mac")]
    return [job for one in repeated(scenario(SHORT), 2) for job in jobs_of(one, chosen, None)]


def without_time(numbers: Numbers) -> Numbers:
    return {name: value for name, value in numbers.items() if name != "took_s"}


class Executors(unittest.TestCase):
    def check(self, executor: Executor) -> None:
        """The executor gives what runs in this process give, in the same order."""
        found = run_jobs(jobs(), Store(), executor, Progress(4))
        self.assertEqual(list(map(without_time, found)), [without_time(work(job)) for job in jobs()])

    def test_threads(self) -> None:
        with ThreadPoolExecutor(2) as executor:
            self.check(executor)

    @unittest.skipIf(importlib.util.find_spec("distributed") is None, "dask.distributed is not installed")
    def test_a_cluster_of_dask(self) -> None:
        distributed: Any = importlib.import_module("distributed")
        options = {"n_workers": 2, "threads_per_worker": 1, "dashboard_address": None, "silence_logs": 40}
        with distributed.LocalCluster(**options) as cluster, distributed.Client(cluster) as client:
            self.check(client.get_executor(pure=False))


if __name__ == "__main__":
    unittest.main()
