#!/usr/bin/env python3
"""The Python peers of the list question, on the meshes of 64 stations.

  bench/peers.py MESHES TIMES [SECONDS]     MESHES as the bench writes them; TIMES a line a mesh: its name, a tab, the library's nanoseconds for all levels

networkx's k_components and igraph's cohesive_blocks are asked once a mesh, each in a process of its own and for SECONDS (60) at the most. A peer that
no Python of this machine can import is skipped with a word."""
import subprocess
import sys
import time

PYTHONS = [sys.executable, "/usr/bin/python3"]


def networkx_seconds(n, links):
    import networkx
    graph = networkx.Graph()
    graph.add_nodes_from(range(n))
    graph.add_edges_from(links)
    began = time.perf_counter()
    networkx.k_components(graph)
    return time.perf_counter() - began


def igraph_seconds(n, links):
    import igraph
    graph = igraph.Graph(n=n, edges=links)
    began = time.perf_counter()
    graph.cohesive_blocks()
    return time.perf_counter() - began


PEERS = {"networkx": networkx_seconds, "igraph": igraph_seconds}


def read(path):
    found = []
    for line in open(path):
        words = line.split()
        if words and words[0] == "mesh":
            found.append((words[4].replace("_", " "), int(words[1]), int(words[2]), []))
        elif words and len(found[-1][3]) < found[-1][2]:
            found[-1][3].append((int(words[0]), int(words[1])))
    return {name: (n, links) for name, n, _, links in found if n == 64}


def python_of(module):
    """A Python that can import the module, or None."""
    for python in PYTHONS:
        if subprocess.run([python, "-c", "import " + module], stderr=subprocess.DEVNULL).returncode == 0:
            return python
    return None


def ask(python, peer, meshes, name, limit):
    """Seconds, or a word."""
    try:
        done = subprocess.run([python, __file__, "--one", peer, meshes, name], stdout=subprocess.PIPE, stderr=subprocess.DEVNULL, timeout=limit)
    except subprocess.TimeoutExpired:
        return "over %d s" % limit
    return float(done.stdout) if done.returncode == 0 else "failed"


def main():
    if sys.argv[1] == "--one":
        _, _, peer, meshes, name = sys.argv
        print(PEERS[peer](*read(meshes)[name]))
        return
    times = dict(line.rstrip("\n").split("\t") for line in open(sys.argv[2]))
    limit = int(sys.argv[3]) if len(sys.argv) > 3 else 60
    pythons = {peer: python_of(peer) for peer in PEERS}
    print("| Mesh of 64 stations | Library, all levels | networkx k_components | times slower | igraph cohesive_blocks | times slower |")
    print("|---|---|---|---|---|---|")
    for name in read(sys.argv[1]):
        own = float(times[name]) / 1e9
        row = [name, "%.1f us" % (own * 1e6)]
        for peer in PEERS:
            seconds = ask(pythons[peer], peer, sys.argv[1], name, limit) if pythons[peer] else "not installed: skipped"
            if isinstance(seconds, float):
                row += ["%.1f ms" % (seconds * 1e3), "%.0f" % (seconds / own)]
            else:
                row += [seconds, "-"]
        print("| " + " | ".join(row) + " |", flush=True)


if __name__ == "__main__":
    main()
