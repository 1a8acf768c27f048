#!/usr/bin/env python3
"""Times simulated commands that name jobs, against python3's json, yt-dlp where it is there, or another command; both sides in turn, in one run."""
import json
import os
import shutil
import subprocess
import sys

HERE = os.path.dirname(os.path.abspath(__file__))
WORK = os.path.join(HERE, "work")
PROGRAM = os.environ.get("YTDL", os.path.join(os.path.dirname(HERE), "ytdl"))
RUNS = int(os.environ.get("JOB_RUNS", "5"))
FIELDS = "res:720,fps,vcodec,acodec,asr,size,br,ext"

# What is printed is a ratio of user and system time, and of memory where that is asked for; the statuses tell runs that ended early.


def video(number, **more):
    """A format with both streams."""
    return {"format_id": str(number), "ext": "mp4", "vcodec": "avc1", "acodec": "mp4a", "width": 1280, "height": 720,
            "fps": 30, "tbr": 1000 + number * 7919 % 97, "asr": 44100, "filesize": 10**6 + number * 7907 % 89,
            "url": "http://h/%d" % number, **more}


def one(formats, **more):
    """An item."""
    return {"id": "x", "title": "t", "upload_date": "20200102", "formats": formats, **more}


def items(count, formats, same=False):
    """So many items of so many formats, whose names differ or are the same."""
    listed = [video(k) for k in range(formats)]
    return [one(listed, id="x" if same else "id%d" % n, title="t" if same else "title %d" % n) for n in range(count)]


def beside(count, last=False):
    """Names of pieces of one component, which is the first or the last of them."""
    listed = [video(0)]
    ids = ["a.part-Frag%d" % n for n in range(count - 1)]
    return [one(listed, id=name) for name in (ids + ["a"] if last else ["a"] + ids)]


def fragments(count):
    """An item with a format of so many fragments, and one without."""
    return one([video(1, fragments=[{"url": "http://h/%d" % k} for k in range(count)]), video(2)])


# what is read, by the name of its file
FILES = {
    "items-1000": lambda: items(1000, 20),
    "items-10000": lambda: items(10000, 20),
    "formats-10000": lambda: one([video(k) for k in range(10000)]),
    "differ-10000": lambda: items(10000, 1),
    "clash-10000": lambda: items(10000, 1, True),
    "beside-10000": lambda: beside(10000),
    "before-10000": lambda: beside(10000, True),
    "fragments-20000": lambda: fragments(20000),
    "title-plain": lambda: one([video(1)], title="a title: " * (2**23 // 9)),
    "title-accents": lambda: one([video(1)], title="Cr\u00e8me: " * (2**23 // 8)),
    "few": lambda: one([video(k) for k in range(20)]),
}
DATED = ["-o", "%(upload_date>%Y)s/%(title)s [%(id)s].%(ext)s"]
BY_FORMAT = ["-o", "%(formats.0.format_id)s-%(format_id)s.%(ext)s"]
FILTERED = ["-f", "/".join("bv[height<=%d][fps<=30]" % h for h in (2160, 1440, 1080, 100)) + "/b[ext=mp4]", "-S", FIELDS]


def unmet(count):
    """So many alternatives, none of which is met but the last; one word of a command has 128 KiB at most."""
    return ["-f", "x/" * (count - 1) + "b"]


# the file, and the words behind it
CASES = {
    "1,000 items of 20 formats named": ("items-1000", DATED),
    "10,000 items of 20 formats named": ("items-10000", DATED),
    "five alternatives, nine filters and eight sort fields over 10,000 formats": ("formats-10000", FILTERED),
    "all of 10,000 formats": ("formats-10000", ["-f", "all"] + BY_FORMAT),
    "the best of 10,000 formats": ("formats-10000", ["-f", "b"] + BY_FORMAT),
    "10,000 jobs that differ": ("differ-10000", ["-o", "%(id)s.%(ext)s"]),
    "10,000 jobs that clash": ("clash-10000", ["-o", "%(id)s.%(ext)s"]),
    "10,000 names of pieces of one component": ("beside-10000", ["-o", "%(id)s"]),
    "10,000 names of pieces before their component": ("before-10000", ["-o", "%(id)s"]),
    "one format of 20,000 fragments": ("fragments-20000", ["-f", "1"]),
    "the same file, another format": ("fragments-20000", ["-f", "2"]),
    "6,000 alternatives": ("few", unmet(6000)),
    "60,000 alternatives": ("few", unmet(60000)),
    "one pattern over 10,000 formats": ("formats-10000", ["-f", "b[format_id~='^9+$']"]),
    "one pattern over 1,000 items": ("items-1000", ["-f", "b[format_id~='^1+$']"]),
    "a title of 8 MiB cleaned": ("title-plain", ["-o", "%(id)s", "--print", "%(title)S"]),
    "a title of 8 MiB restricted": ("title-accents", ["-o", "%(id)s", "--print", "%(title)#S"]),
}
SORTED = """sorted(info['formats'], key=lambda f: (f['height'] <= 720, f['height'], f['fps'], f['vcodec'], f['acodec'], f['asr'],
    f['filesize'], f['tbr'], f['ext']))"""
YT_DLP = "yt-dlp"
# (case, against: a case, python3's json and what it does then, or yt-dlp; the most that the ratio may be, the most of memory)
RATIOS = [
    ("1,000 items of 20 formats named", "json: ", 1.3, None),
    ("10,000 items of 20 formats named", "json: ", 1.3, None),
    ("1,000 items of 20 formats named", YT_DLP, 0.005, None),
    ("10,000 items of 20 formats named", "1,000 items of 20 formats named", 12, None),
    ("five alternatives, nine filters and eight sort fields over 10,000 formats", "json: " + SORTED, 0.6, None),
    ("all of 10,000 formats", "the best of 10,000 formats", 4, 2),
    ("10,000 jobs that clash", "10,000 jobs that differ", 1.3, None),
    ("10,000 names of pieces of one component", "10,000 jobs that differ", 1.3, None),
    ("10,000 names of pieces before their component", "10,000 jobs that differ", 1.3, None),
    ("one format of 20,000 fragments", "the same file, another format", 3, None),
    ("60,000 alternatives", "6,000 alternatives", 12, None),
]
MEASURED = ["one pattern over 10,000 formats", "one pattern over 1,000 items", "a title of 8 MiB cleaned", "a title of 8 MiB restricted"]


def made(name):
    """The path of a file, which is made the first time."""
    os.makedirs(WORK, exist_ok=True)
    path = os.path.join(WORK, "job-%s.json" % name)
    if not os.path.exists(path):
        with open(path, "w") as file:
            json.dump(FILES[name](), file)
    return path


def command(side, case):
    """The words of one side: a case of the program, or another reader of the case's file."""
    if side == YT_DLP:
        file, words = CASES[case]
        return [YT_DLP, "--load-info-json", made(file), "-s", "-i"] + words
    if side.startswith("json: "):
        work = "import json,sys;info=json.load(open(sys.argv[1],'rb'));" + " ".join(side[6:].split())
        return [sys.executable, "-c", work, made(CASES[case][0])]
    file, words = CASES[side]
    return [PROGRAM, "--load-info-json", made(file), "-s"] + words


def spent(words):
    """The user and system time of one run in seconds, its peak memory in bytes, and its status."""
    child = subprocess.Popen(words, stdout=subprocess.DEVNULL, stderr=subprocess.DEVNULL)
    _, status, usage = os.wait4(child.pid, 0)
    child.returncode = os.waitstatus_to_exitcode(status)
    return usage.ru_utime + usage.ru_stime, usage.ru_maxrss * 1024, child.returncode


def turn_about(sides):
    """The least time, the peak memory and the status of each of these commands, run in turn."""
    runs = [[spent(words) for words in sides] for _ in range(RUNS)]
    return [(min(one[0] for one in side), max(one[1] for one in side), side[0][2]) for side in zip(*runs)]


def report(case, against, most, memory):
    if against == YT_DLP and not shutil.which(YT_DLP):
        print("%s: yt-dlp is not there" % case, flush=True)
        return
    (ours, peak, status), (theirs, their_peak, their_status) = turn_about([command(case, case), command(against, case)])
    other = against if against in CASES or against == YT_DLP else "python3's json" + (" and its sorted" if len(against) > 6 else "")
    line = "%s: %.3f of %s (%.3f and %.3f s; at most %g)" % (case, ours / theirs, other, ours, theirs, most)
    if memory:
        line += ", memory %.2f (at most %g)" % (peak / their_peak, memory)
    print("%s; status %d and %d, load %.1f" % (line, status, their_status, os.getloadavg()[0]), flush=True)


def main():
    wanted = sys.argv[1:]
    for case, against, most, memory in RATIOS:
        if not wanted or any(word in case for word in wanted):
            report(case, against, most, memory)
    for case in MEASURED:
        if not wanted or any(word in case for word in wanted):
            [(took, peak, status)] = turn_about([command(case, case)])
            print("%s: %.3f s, peak %.2f of the file; status %d, load %.1f" % (
                case, took, peak / os.path.getsize(made(CASES[case][0])), status, os.getloadavg()[0]), flush=True)


if __name__ == "__main__":
    main()
