#!/usr/bin/env python3
"""Writes a JSON text of about so many megabytes: records of names, numbers, nested arrays and texts that are not ASCII.

usage: make_json.py MEGABYTES > FILE
"""
import json
import random
import sys


def record(rng, number):
    """A record as a service might answer it."""
    return {
        "id": number,
        "name": rng.choice(["Ada", "Grace", "Édith", "林檎", "O\"Neil"]),
        "active": rng.random() < 0.5,
        "score": round(rng.uniform(-1e3, 1e3), 6),
        "position": [round(rng.uniform(-180, 180), 7), round(rng.uniform(-90, 90), 7)],
        "tags": [rng.choice(["new", "old", "a longer tag", "\t"]) for _ in range(rng.randrange(4))],
        "parent": None if number == 0 else {"id": rng.randrange(number), "path": []},
    }


def main():
    wanted, written, number = int(sys.argv[1]) * 1_000_000, 2, 0
    rng = random.Random(1)
    sys.stdout.write("[")
    while written < wanted:
        text = ("," if number else "") + json.dumps(record(rng, number), ensure_ascii=number % 2 == 0)
        sys.stdout.write(text)
        written += len(text.encode())
        number += 1
    sys.stdout.write("]\n")


main()
