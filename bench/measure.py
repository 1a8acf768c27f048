#!/usr/bin/env python3
"""Times the built program and other readers on the same file in the same run, and prints ratios."""
import os
import resource
import shutil
import subprocess
import sys
import time

HERE = os.path.dirname(os.path.abspath(__file__))
ROOT = os.path.dirname(HERE)
WORK = os.path.join(HERE, "work")
PROGRAM = os.environ.get("YTDL", os.path.join(ROOT, "ytdl"))
# another build of the program, as one from before a change, to be measured beside it
OTHER = os.environ.get("YTDL_OTHER")

# kind: (small, large, words behind the file)
CASES = {
    "long": (8, 60, []),
    "escapes": (8, 60, []),
    "maps": (13000, 130000, []),
    "items": (1000, 10000, ["-f", "7"]),
    "formats": (1000, 10000, ["-f", "7"]),
    "sorted": (1000, 10000, ["-f", "b", "-S", "res:720,fps,vcodec,asr,size,br"]),
    "keys": (100000, 1000000, []),
    "repeated": (100000, 1000000, []),
}

# what python3 does with the same file, where that is more than to read it
PYTHON = {
    "sorted": "sorted(info['formats'], key=lambda f: (f['height'] <= 720, f['height'], f['fps'], f['vcodec'], f['asr'], f['filesize'], f['tbr']))",
}


def made(kind, number):
    os.makedirs(WORK, exist_ok=True)
    path = os.path.join(WORK, "%s-%d.json" % (kind, number))
    if not os.path.exists(path):
        subprocess.run([sys.executable, os.path.join(HERE, "make_info.py"), kind, str(number), path], check=True)
    return path


def timed(words, runs=3):
    """The least wall time of some runs in seconds, and the peak memory in bytes."""
    best, peak = None, 0
    for _ in range(runs):
        start = time.perf_counter()
        child = subprocess.Popen(words, stdout=subprocess.DEVNULL, stderr=subprocess.DEVNULL)
        _, _, usage = os.wait4(child.pid, 0)
        took = time.perf_counter() - start
        best = took if best is None else min(best, took)
        peak = max(peak, usage.ru_maxrss * 1024)
    return best, peak


def main():
    kinds = sys.argv[1:] or list(CASES)
    subprocess.run([PROGRAM], stdout=subprocess.DEVNULL, stderr=subprocess.DEVNULL)
    for kind in kinds:
        small, large, more = CASES[kind]
        results = []
        for number in (small, large):
            path = made(kind, number)
            ours, peak = timed([PROGRAM, "--load-info-json", path, "--print", "filename"] + more)
            size = os.path.getsize(path)
            results.append((ours, size))
            line = "%s %d: %.1f MiB, ours %.3f s, peak %.2f of the file" % (kind, number, size / 2**20, ours, peak / size)
            if OTHER:
                other, _ = timed([OTHER, "--load-info-json", path, "--print", "filename"] + more)
                line += ", %.2f of the other build" % (ours / other)
            python, _ = timed([sys.executable, "-c", "import json,sys;info=json.load(open(sys.argv[1],'rb'));" + PYTHON.get(kind, ""), path])
            line += ", %.2f of python3's json%s" % (ours / python, " and its sorted" if kind in PYTHON else "")
            if shutil.which("jq"):
                jq, _ = timed(["jq", ".id?", path], 1)
                line += ", %.2f of jq" % (ours / jq)
            probe = subprocess.run([sys.executable, "-c", "import orjson"], stderr=subprocess.DEVNULL)
            if probe.returncode == 0:
                orjson, _ = timed([sys.executable, "-c", "import orjson,sys;orjson.loads(open(sys.argv[1],'rb').read())", path])
                line += ", %.2f of orjson" % (ours / orjson)
            print(line, flush=True)
        (a, m), (b, n) = results
        print("%s: %.1f times the bytes take %.1f times the time" % (kind, n / m, b / a), flush=True)


if __name__ == "__main__":
    main()
