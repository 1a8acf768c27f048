#!/usr/bin/env python3
"""Writes information files for the benches: KIND is long, escapes, maps, items, formats, keys or repeated; N is MiB, maps, items, formats or keys."""
import json
import sys


def long_strings(mib):
    text = "plain text of a description that goes on for a while, "
    size = mib << 20
    piece = text * (65536 // len(text))
    head = '{"id":"x","title":"t","formats":[{"format_id":"1","url":"http://h/1"}]'
    parts = [head]
    total = len(head)
    number = 0
    while total + len(piece) + 32 < size:
        part = ',"k%d":"%s"' % (number, piece)
        parts.append(part)
        total += len(part)
        number += 1
    parts.append("}")
    return "".join(parts)


def escaped_strings(mib):
    return long_strings(mib // 2).replace("plain text", "pl\\u00e4in\\ntext\\t\\\"q").replace(" that", "\\u20acthat")


def small_maps(count):
    rows = []
    for k in range(count):
        row = {"format_id": "f%d" % k, "ext": "mp4", "vcodec": "avc1.640028", "acodec": "none", "width": 1920, "height": 1080,
               "tbr": 2500.125, "fps": 29.97, "url": "https://example.com/video/%d?expire=1700000000&sig=%040d" % (k, k),
               "protocol": "https", "quality": 7, "language": None,
               "http_headers": {"User-Agent": "Mozilla/5.0 (X11; Linux x86_64)", "Accept": "text/html,application/xhtml+xml",
                                "Accept-Language": "en-us,en;q=0.5", "Sec-Fetch-Mode": "navigate"}}
        rows.append(row)
    return json.dumps({"id": "x", "title": "t", "rows": rows, "formats": [{"format_id": "1", "url": "http://h/1"}]})


def items(count, formats=20):
    def item(k):
        return {"id": "id%d" % k, "title": "title number %d" % k, "extractor_key": "Site",
                "formats": [{"format_id": str(j), "ext": "mp4", "vcodec": "avc1", "acodec": "mp4a", "height": 90 * j,
                             "url": "http://h/%d/%d" % (k, j)} for j in range(formats)]}
    return json.dumps([item(k) for k in range(count)])


def formats(count):
    return json.dumps({"id": "x", "title": "t", "formats": [
        {"format_id": str(j), "ext": "mp4", "vcodec": "avc1", "acodec": "mp4a", "url": "http://h/%d" % j} for j in range(count)]})


def sorted_formats(count):
    # equal in most fields, so that the last ones decide
    return json.dumps({"id": "x", "title": "t", "formats": [
        {"format_id": str(j), "ext": "mp4", "vcodec": "avc1", "acodec": "mp4a", "width": 1280, "height": 720, "fps": 30,
         "tbr": 1000 + j * 7919 % 97, "asr": 44100, "filesize": 10**6 + j * 7907 % 89, "url": "http://h/%d" % j} for j in range(count)]})


def one_map(keys):
    return '{"id":"x","title":"t","formats":[{"format_id":"1","url":"http://h/1"}],%s}' % ",".join('"%s":%d' % pair for pair in keys)


def different_keys(count):
    # spread over the order of the keys, so that none goes last there
    return one_map(("key%08d" % (k * 7368787 % 99999989), k) for k in range(count))


def repeated_key(count):
    return one_map(("key", k) for k in range(count))


KINDS = {"long": long_strings, "escapes": escaped_strings, "maps": small_maps, "items": items, "formats": formats,
         "sorted": sorted_formats, "keys": different_keys, "repeated": repeated_key}

if __name__ == "__main__":
    kind, number, path = sys.argv[1], int(sys.argv[2]), sys.argv[3]
    with open(path, "w", encoding="utf-8") as out:
        out.write(KINDS[kind](number))
