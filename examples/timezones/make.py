#!/usr/bin/env python3
"""Makes zones.csv and hours.csv of this folder.

usage: examples/timezones/make.py [FOLDER]

FOLDER has the time zone database in its compiled form, with zone.tab, and is /usr/share/zoneinfo if it is not given. The local times
are those of 14 March 2026. Of the zones of a country that have the same time on that day the first is kept, as zone.tab has them. The
strain of a local time is the square of the minutes by which it lies before 9 or after 17 o'clock, by the nearer way.
"""
import csv
import datetime
import os
import sys
import zoneinfo

HERE = os.path.dirname(os.path.abspath(__file__))
DAY = (2026, 3, 14)
FIRST, LAST, WHOLE = 9 * 60, 17 * 60, 24 * 60


def outside(minute):
    """How many minutes a time lies before or after the working hours, by the nearer way."""
    return 0 if FIRST <= minute <= LAST else min((FIRST - minute) % WHOLE, (minute - LAST) % WHOLE)


def times_in(zone):
    """The local time at each hour of UTC on the day."""
    start = datetime.datetime(*DAY, tzinfo=datetime.timezone.utc)
    return [(start + datetime.timedelta(hours=it)).astimezone(zoneinfo.ZoneInfo(zone)) for it in range(24)]


def write(name, rows):
    with open(f"{HERE}/{name}", "w", encoding="utf-8", newline="") as file:
        csv.writer(file, lineterminator="\n").writerows(rows)


def main():
    folder = sys.argv[1] if len(sys.argv) > 1 else "/usr/share/zoneinfo"
    zoneinfo.reset_tzpath(to=[os.path.abspath(folder)])
    with open(f"{folder}/zone.tab", encoding="utf-8") as file:
        lines = [it.rstrip("\n").split("\t") for it in file if not it.startswith("#")]
    zones = {}
    for country, _, zone, *_ in sorted(lines, key=lambda it: it[0]):
        zones.setdefault((country, times_in(zone)[0].utcoffset()), zone)
    kept = sorted(set(zones.values()))
    hours = [
        (zone, f"{hour:02}:00", f"{it:%H:%M}", outside(60 * it.hour + it.minute) ** 2)
        for zone in kept
        for hour, it in enumerate(times_in(zone))
    ]
    write("zones.csv", [("country", "zone"), *((country, zone) for (country, _), zone in zones.items())])
    write("hours.csv", [("zone", "utc", "local", "strain"), *hours])


if __name__ == "__main__":
    main()
