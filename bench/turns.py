"""Runs of `interop serve` that take turns under the load of bench/serve: what bench/log and bench/trace share."""
import importlib.machinery
import importlib.util
import os
import statistics
import subprocess
import threading

import common


def load_module():
    """bench/serve, whose load this is."""
    path = os.path.join(common.ROOT, "bench", "serve")
    loader = importlib.machinery.SourceFileLoader("bench_serve", path)
    module = importlib.util.module_from_spec(importlib.util.spec_from_loader("bench_serve", loader))
    loader.exec_module(module)
    return module


serve = load_module()


def drain(server):
    """Reads what a server prints, so that it never waits for it."""
    while server.stdout.read1(1 << 16):
        pass


def start(program, *options):
    """The port, the process that serves on it, and the one to kill."""
    port = serve.free_port()
    server = subprocess.Popen([program, "serve", "--port", str(port), *options], stdin=subprocess.DEVNULL, stdout=subprocess.PIPE)
    server.stdout.readline()
    threading.Thread(target=drain, args=(server,), daemon=True).start()
    return port, common.serving(server.pid), server


def figures(servers, rounds, after=lambda: None):
    """For each load: what it is called, its unit, and of each server the median figure and the processor time of a call in
    microseconds. Between runs `after` is called."""
    for name, words, figure in serve.PLAN:
        if not figure:
            continue
        told = []
        for _ in range(rounds):
            for port, pid, _ in servers:
                told.append(serve.load(port, pid, words))
                after()
        each = [told[at :: len(servers)] for at in range(len(servers))]
        yield name, serve.UNITS[figure], [
            (statistics.median(run[figure] for run in runs), sum(run["processor"] for run in runs) / sum(run["ops"] for run in runs) * 1e6)
            for runs in each
        ]
