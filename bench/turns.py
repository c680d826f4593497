"""Measures turns that wait: eight threads, while another one holds the turn for a second, asleep.

usage: python3 bench/turns.py [THREADS [MILLISECONDS]]    over crates/worked_serve as built last (PROGRAM names another program)

The elapsed time is that for which the turn is held. A thread that spins takes as much processor time as goes by while a
processor is free for it, and one that sleeps takes next to none.
"""
import resource
import subprocess
import sys
import time

from measure import program


def processor_time():
    """Seconds that the children which have ended took."""
    usage = resource.getrusage(resource.RUSAGE_CHILDREN)
    return usage.ru_utime + usage.ru_stime


def main():
    threads = int(sys.argv[1]) if len(sys.argv) > 1 else 8
    held = int(sys.argv[2]) if len(sys.argv) > 2 else 1000
    began, used = time.perf_counter(), processor_time()
    done = subprocess.run([program("worked_serve")], input="rows of turns\n%d %d\n" % (threads, held), stdout=subprocess.PIPE, text=True)
    elapsed, used = time.perf_counter() - began, processor_time() - used
    if done.returncode != 0 or not done.stdout.startswith("rows of turns\n%d waited, %d entries\n" % (threads, threads + 1)):
        raise SystemExit("the program ended with status %d: %s" % (done.returncode, done.stdout.strip()))
    print("%s; a turn of %d ms: %.3f s elapsed, %.4f s of processor time" % (done.stdout.splitlines()[1], held, elapsed, used))
    print("processor time for each thread that waits: %.2f%% of the time for which it waits" % (
        100 * used / max(threads * held / 1000, 0.001)))


if __name__ == "__main__":
    main()
