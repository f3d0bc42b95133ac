"""The runs of long commands on a Dask cluster of this machine; one of its workers is ended in the middle."""
from __future__ import annotations

import json
import os
import socket
import subprocess
import sys
import time
from pathlib import Path

import pytest
from conftest import EXAMPLES
from test_commands import VP, as_json

import vpoker

distributed = pytest.importorskip("distributed", reason="dask.distributed is missing: Debian's python3-distributed")
pytestmark = pytest.mark.slow
PACKAGE = Path(VP[1]).parent


def free_port() -> int:
    with socket.socket() as one:
        one.bind(("127.0.0.1", 0))
        return int(one.getsockname()[1])


@pytest.fixture()
def cluster(program):
    """The address of a scheduler with two workers of one thread, and the workers' processes."""
    address = f"127.0.0.1:{free_port()}"
    quiet = {"stdout": subprocess.DEVNULL, "stderr": subprocess.DEVNULL}
    env = {**os.environ, "PYTHONPATH": str(PACKAGE), "VPOKER": str(program.path)}
    module = [sys.executable, "-m"]
    scheduler = subprocess.Popen([*module, "distributed.cli.dask_scheduler", "--host", address, "--no-dashboard"], env=env, **quiet)
    command = [*module, "distributed.cli.dask_worker", f"tcp://{address}", "--nthreads", "1", "--no-nanny", "--no-dashboard"]
    workers = [subprocess.Popen(command, env=env, **quiet) for _ in range(2)]
    try:
        with distributed.Client(f"tcp://{address}", timeout=60) as client:
            client.wait_for_workers(2, timeout=60)
        yield f"tcp://{address}", workers
    finally:
        for process in [*workers, scheduler]:
            process.kill()
            process.wait()


def test_vary_on_a_cluster(cluster):
    address, _ = cluster
    words = ["vary", EXAMPLES / "jacks-9-6.txt", "full-house=6..9", "flush=5,6"]
    assert as_json(*words, "--cluster", address) == as_json(*words)


def test_a_worker_that_is_ended_loses_no_part(cluster, jacks, tmp_path):
    address, workers = cluster
    certificate = tmp_path / "jacks.cert"
    certificate.write_bytes(vpoker.certify(jacks).data)
    kept = tmp_path / "jacks.cert.vp-check"
    words = ["check", str(certificate), "--sample", "160", "--cluster", address, "--json"]
    run = subprocess.Popen([*VP, *words], stdout=subprocess.PIPE, stderr=subprocess.PIPE)
    until = time.monotonic() + 120
    while time.monotonic() < until and not (kept.exists() and kept.read_text().count("\n") > 10):
        time.sleep(0.05)
    done = kept.read_text().count("\n") - 1
    workers[0].kill()
    output, faults = run.communicate(timeout=240)
    assert run.returncode == 0, faults.decode()
    assert done < 160, "the worker was ended too late to try anything"
    assert json.loads(output)["enumerated"] == 160
    parts = [json.loads(line)["from"] for line in kept.read_text().splitlines()[1:]]
    assert len(parts) == len(set(parts)) == 160


def test_no_scheduler():
    done = subprocess.run([*VP, "vary", str(EXAMPLES / "jacks-9-6.txt"), "flush=5", "--cluster", f"tcp://127.0.0.1:{free_port()}"],
                          capture_output=True, check=False)
    assert done.returncode == 9 and b"no Dask scheduler" in done.stderr
