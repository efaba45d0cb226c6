"""Compares counts with the stored ones: fails where one of the library grew by more than 2 %.

compare.py STORED NOW [PREFIX]: of the jobs that begin so."""
import sys


def read(path):
    with open(path, encoding="utf-8") as lines:
        return {tuple(line.split()[:2]): int(line.split()[2]) for line in lines if line.strip()}


prefix = sys.argv[3] if len(sys.argv) > 3 else ""
stored, now = read(sys.argv[1]), read(sys.argv[2])
grown = 0
for key, count in now.items():
    old = stored.get(key)
    note = "" if old is None or old == count else f"   was {old}"
    if key[1] == "library" and old is not None and count * 100 > old * 102:
        note += "   GREW"
        grown += 1
    print(f"{key[0]:30} {key[1]:18} {count:10}{note}")
missing = [key for key in stored if key not in now and key[1] == "library" and key[0].startswith(prefix)]
for key in missing:
    print(f"{key[0]:30} {key[1]:18}   missing")
print(f"{len(now)} counts, {grown} grew by more than 2 %, {len(missing)} missing")
sys.exit(1 if grown or missing else 0)
