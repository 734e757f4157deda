"""What the benchmarks share: a program that is built, and the processor time that a run of it takes."""
import os, resource, subprocess, sys

def built(crate, *arguments):
    tool = os.path.join(os.path.dirname(os.path.abspath(__file__)), "built")
    return subprocess.run([tool, crate, *arguments], stdout=subprocess.PIPE, check=True).stdout.decode().strip()

def spent(command, text=b""):
    before = resource.getrusage(resource.RUSAGE_CHILDREN)
    done = subprocess.run(command, input=text, stdout=subprocess.DEVNULL)
    after = resource.getrusage(resource.RUSAGE_CHILDREN)
    if done.returncode != 0:
        sys.exit("the program ended with %d" % done.returncode)
    return (after.ru_utime + after.ru_stime) - (before.ru_utime + before.ru_stime)
