"""The expected results of tests/long/many.sh: verdicts that are computed one after another, and a parser of JSON other than that of
examples/many/summary.

    many.py expect PROGRAM TRACE..       prints the line of JSON that each trace must have
    many.py compare EXPECTED FOLDER SUMMARY REPEATED
                                         compares the *.jsonl files of FOLDER, and the output of SUMMARY for it, with the file EXPECTED
    many.py cuts LINES SUMMARY FOLDER    writes each beginning of each line into FOLDER, and compares the output of SUMMARY

`compare` prints how many lines were repeated and cut. Its exit status is 1 if a run has no line or another one, or if more than REPEATED
lines were repeated. FOLDER need not contain the list.
"""
import json
import pathlib
import subprocess
import sys

KINDS = ["opaque so far", "strict so far", "violated", "undecided", "malformed", "fault"]


def expect(program, *traces):
    for trace in traces:
        with open(trace, "rb") as text:
            told = subprocess.run([program, "judge"], stdin=text, stdout=subprocess.PIPE, check=False).stdout.decode()
        print(json.dumps({"run": trace, **json.loads(told)}, ensure_ascii=False, separators=(",", ":")))


def read_lines(folder):
    """The lines of all files that are JSON, and how many lines are not."""
    whole, cut = [], 0
    for file in sorted(pathlib.Path(folder).glob("*.jsonl")):
        for line in file.read_bytes().decode(errors="replace").split("\n"):
            try:
                whole.append((json.loads(line)["run"], line))
            except ValueError:
                cut += line != ""
    return whole, cut


def summary_of(lines, runs):
    """What summary is to print, and its exit status."""
    told = {run: json.loads(line) for run, line in lines.items()}
    count = {}
    for report in told.values():
        kind = report.get("verdict", "fault")
        count[kind] = count.get(kind, 0) + 1
    rows = [f"{len(told):8d} runs"] + [f"{count[kind]:8d} {kind}" for kind in KINDS if kind in count]
    left = sum(run not in lines for run in runs)
    rows += [f"{left:8d} no verdict"] if left else []
    bad = [(r.get("at", 10**20), lines[run].encode()) for run, r in told.items() if not r.get("verdict", "").endswith(" so far")]
    rows += [line.decode() for _, line in sorted(bad)]
    return "\n".join(rows) + "\n", int(bool(bad or left or not told))


def same_summary(folder, summary, lines, runs):
    told = subprocess.run([summary, str(folder)], stdout=subprocess.PIPE, check=False)
    wanted, status = summary_of(lines, runs)
    if told.stdout.decode() == wanted and told.returncode == status:
        return True
    print(f"summary, status {told.returncode}:\n{told.stdout.decode()}in place of, status {status}:\n{wanted}", end="")
    return False


def compare(expected, folder, summary, repeated):
    wanted = {json.loads(line)["run"]: line for line in pathlib.Path(expected).read_text().splitlines()}
    whole, cut = read_lines(folder)
    right = True
    for run, line in whole:
        if wanted.get(run) != line:
            right = False
            print(f"{line} in place of {wanted.get(run)}")
    for run in wanted.keys() - dict(whole).keys():
        right = False
        print(f"no verdict of {run}")
    again = len(whole) - len(dict(whole))
    print(f"{len(wanted)} runs, {again} lines repeated, {cut} cut")
    right = right and again <= int(repeated)
    return same_summary(folder, summary, dict(whole), wanted) and right


def cuts(lines, summary, folder):
    folder = pathlib.Path(folder)
    lines = pathlib.Path(lines).read_text().splitlines()
    runs = [json.loads(line)["run"] for line in lines]
    (folder / "list").write_text("".join(run + "\n" for run in runs))
    # Each cut of each line but the first one stands by itself; the first line stands in the next file; and after each cut on its line.
    pieces = [line.encode()[:length] for line in lines[1:] for length in range(1, len(line.encode()))]
    first = lines[0].encode()
    (folder / "a.jsonl").write_bytes(b"\n".join(pieces))
    (folder / "b.jsonl").write_bytes(first)
    (folder / "c.jsonl").write_bytes(b"\n".join(piece + first for piece in pieces))
    print(f"{len(pieces)} cuts of {len(lines) - 1} lines")
    return same_summary(folder, summary, {runs[0]: lines[0]}, runs)


if __name__ == "__main__":
    sys.exit({"expect": expect, "compare": compare, "cuts": cuts}[sys.argv[1]](*sys.argv[2:]) is False)
