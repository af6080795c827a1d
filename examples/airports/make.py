#!/usr/bin/env python3
"""Makes airports.csv and legs.csv of this folder.

usage: examples/airports/make.py FILE

FILE is airports.csv of the Python package vega_datasets, with the columns iata, name, city, state, country, latitude and longitude.
The airports of Alaska are kept, and a leg leads from each to each other that is 50 to 350 km away, on a sphere. Distances are in
whole metres.
"""
import csv
import math
import os
import sys

HERE = os.path.dirname(os.path.abspath(__file__))
RADIUS = 6371008.8
LEAST, MOST = 50000, 350000


def metres(one, other):
    """The great-circle distance, in whole metres."""
    latitudes = [math.radians(float(it["latitude"])) for it in (one, other)]
    longitudes = [math.radians(float(it["longitude"])) for it in (one, other)]
    half = [math.sin((b - a) / 2) ** 2 for a, b in (latitudes, longitudes)]
    return round(2 * RADIUS * math.asin(math.sqrt(half[0] + math.cos(latitudes[0]) * math.cos(latitudes[1]) * half[1])))


def write(name, rows):
    with open(f"{HERE}/{name}", "w", encoding="utf-8", newline="") as file:
        csv.writer(file, lineterminator="\n").writerows(rows)


def main():
    with open(sys.argv[1], encoding="utf-8", newline="") as file:
        airports = [it for it in csv.DictReader(file) if it["state"] == "AK"]
    write("airports.csv", [("code", "name", "city")] + [(it["iata"], it["name"], it["city"]) for it in airports])
    legs = [(a["iata"], b["iata"], metres(a, b)) for a in airports for b in airports if a is not b]
    write("legs.csv", [("origin", "destination", "metres")] + [it for it in legs if LEAST <= it[2] <= MOST])


if __name__ == "__main__":
    main()
