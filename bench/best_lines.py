#!/usr/bin/env python3
"""best_lines.py FILE..: of lines `bench= peer= size= threads= ns_per_op= ops= cpu_ns= ..`, written by
one run after another, one line for each bench, peer, size and number of threads: the fastest run. Of
threads side by side only runs count in which they ran for nearly the greatest share of their time, as
the peers' harness picks its repetitions. `ops` is of all runs, and `median` of their times."""
import statistics
import sys

runs = {}
for name in sys.argv[1:]:
    with open(name, encoding="utf-8") as lines:
        for line in lines:
            if line.startswith("bench="):
                fields = dict(word.split("=", 1) for word in line.split())
                key = tuple(fields[word] for word in ("bench", "peer", "size", "threads"))
                runs.setdefault(key, []).append(fields)


def share(fields):
    return float(fields["cpu_ns"]) / max(1e-9, float(fields["ns_per_op"]))


for key, found in runs.items():
    together = key[3] != "1" or "+" in key[0]
    top = max(share(it) for it in found)
    fit = [it for it in found if not together or share(it) >= 0.95 * top]
    best = dict(min(fit, key=lambda it: float(it["ns_per_op"])))
    best["ops"] = str(sum(int(it["ops"]) for it in found))
    best["median"] = "%.2f" % statistics.median(float(it["ns_per_op"]) for it in found)
    print(" ".join(f"{word}={text}" for word, text in best.items()))
