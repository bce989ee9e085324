#!/usr/bin/env python3
"""Counts the instructions of a call over k unfinished matches, with the smallest run limit that decides it, k from 4 to 10.

`count_pairs.py PROGRAM`: PROGRAM is out/test_check_rows, the program of the rows, as `rt run` leaves it in crates/test_check_rows. Each row is the
verdict of `allOf` of k times `{"anyOf":[{"pattern":P},{"type":"string"}]}`, with k patterns that stay unfinished, on a text, under the
run limit 2 ^ (k + 1) - 1: its cover has 2 ^ k members, and the call makes that many runs. What the same row takes on a number, where no
match is asked for, is subtracted. Needs valgrind. The counts are of one compiler: compare within one kit (`rt version`)."""
import json, re, subprocess, sys, tempfile


def counted(program, row):
    with tempfile.NamedTemporaryFile("w", suffix=".jsonl") as rows:
        rows.write(json.dumps(row) + "\n")
        rows.flush()
        done = subprocess.run(["valgrind", "--tool=callgrind", "--callgrind-out-file=/dev/null", program, rows.name], capture_output=True, text=True)
    if "1 rows, 0 wrong" not in done.stdout:
        sys.exit("not answered as wanted: " + done.stdout)
    return int(re.search(r"Collected : (\d+)", done.stderr).group(1))


def main():
    program, last = sys.argv[1], None
    for k in range(4, 11):
        patterns = ["(?<=%s)c" % letter for letter in "defghijklm"[:k]]
        schema = {"allOf": [{"anyOf": [{"pattern": pattern}, {"type": "string"}]} for pattern in patterns]}
        limit = 2 ** (k + 1) - 1
        row = {"name": "pairs", "call": "valid", "schema": schema, "unfinished": patterns, "run_limit": limit, "want": True}
        count = counted(program, dict(row, instance="abc")) - counted(program, dict(row, instance=1))
        grown = "" if last is None else " %.2f" % (count / last)
        print("%d pairs, %d members, %d runs: %d instructions, %d a run%s" % (k, 2 ** k, limit, count, count // limit, grown), flush=True)
        last = count


main()
