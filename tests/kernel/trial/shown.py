"""What a kernel shows of the limit files whose values are texts after a write, in the wide machine of machine.py: of two CPUs, two memory nodes and
two discs. A file doesn't always show what was written, and a write of one file can turn another one."""
import re

from second.limit_files import TEXT_FILES

PAGE, MAX = 4096, "max"
DISCS = ("259:0", "259:1")
KEYS = ("rbps", "wbps", "riops", "wiops")
MOST = {"rbps": 2 ** 64 - 1, "wbps": 2 ** 64 - 1, "riops": 2 ** 32 - 1, "wiops": 2 ** 32 - 1}
SIZES = {"hugetlb.2MB": 2 ** 21, "hugetlb.1GB": 2 ** 30, "memory.swap": PAGE, "memory.zswap": PAGE}
UCLAMP, WRITEBACK = ("cpu.uclamp.min", "cpu.uclamp.max"), "memory.zswap.writeback"
IDLE, NICE, WEIGHT = "cpu.idle", "cpu.weight.nice", "cpu.weight"
# what an idle cgroup refuses
OF_WEIGHT = (WEIGHT, NICE)
PARTITION = "cpuset.cpus.partition"
# what a file shows where nothing was written to it, and the others show nothing
FIRST = {"cgroup.freeze": "0", IDLE: "0", "cpu.max": "max 100000", "cpu.max.burst": "0", NICE: "0", PARTITION: "member",
         "cpu.uclamp.min": "0.00", "cpu.uclamp.max": MAX, WRITEBACK: "1", "io.weight": "default 100",
         **{file: MAX for file in TEXT_FILES if file.startswith(("hugetlb.", "memory.swap.", "memory.zswap.max"))}}
# of each nice value from -20 on the weight that the scheduler gives it, which shows as a hundred of 1024
WEIGHTS = (88761, 71755, 56483, 46273, 36291, 29154, 23254, 18705, 14949, 11916, 9548, 7620, 6100, 4904, 3906, 3121, 2501, 1991, 1586,
           1277, 1024, 820, 655, 526, 423, 335, 272, 215, 172, 137, 110, 87, 70, 56, 45, 36, 29, 23, 18, 15)


def number_of(text, least, most):
    """The number that a text is, or None."""
    is_number = text.removeprefix("-").isdigit()
    return int(text) if is_number and least <= int(text) <= most else None


def flag(text, _now):
    number = number_of(text, 0, 1)
    return None if number is None else str(number)


def bandwidth(text, now):
    """A quota of microseconds, 1000 at least and no less than the burst, and a period, which stays where none is written."""
    words = text.split(" ")
    period = number_of((words + [now.get("cpu.max", FIRST["cpu.max"]).split(" ")[1]])[1], 1000, 10 ** 6)
    burst = int(now.get("cpu.max.burst", 0))
    quota = MAX if words[0] == MAX else number_of(words[0], max(1000, burst), 10 ** 9)
    return None if None in (period, quota) else f"{quota} {period}"


def burst(text, now):
    quota = now.get("cpu.max", MAX).split(" ")[0]
    number = number_of(text, 0, 10 ** 9 if quota == MAX else int(quota))
    return None if number is None else str(number)


def nice(text, now):
    number = number_of(text, -20, 19)
    return None if number is None or now.get(IDLE) == "1" else str(number)


def percent(text, _now):
    """A share of 100 in two decimals, of which the whole is shown as `max`; what stands behind a number is passed over."""
    found = re.match(r"\+?([0-9]+)(?:\.([0-9]+))?", text)
    if text == MAX or not found:
        return MAX if text == MAX else None
    part = found[2] or "0"
    hundredths = int(found[1]) * 100 + (int(part) * 200 + 10 ** len(part)) // (2 * 10 ** len(part))
    if hundredths > 10000:
        return None
    # it is kept in parts of 1024
    return MAX if (hundredths * 1024 + 5000) // 10000 == 1024 else f"{hundredths // 100}.{hundredths % 100:02}"


def listed(text, _now):
    """Numbers from 0 to 1, as a list."""
    if not all(part and set(part) <= set("01-") and len(part) in (1, 3) for part in text.split(",")):
        return None
    found = {number for part in text.split(",") for number in range(int(part[0]), int(part[-1]) + 1)}
    return "0-1" if len(found) > 1 else str(*found)


def partition(text, _now):
    return text if text in ("member", "root", "isolated") else None


def in_whole(size):
    """A number of bytes, rounded down to pages of a size."""
    def taken(text, _now):
        number = number_of(text, 0, 2 ** 63 - 1)
        if text == MAX or number is not None and number >= 2 ** 63 - size:
            return MAX
        return None if number is None else str(number // size * size)
    return taken


def default_weight(text, _now):
    number = number_of(text.removeprefix("default "), 1, 10000)
    return None if number is None else f"default {number}"


def of_discs(text, now):
    """The line of one disc: what isn't written of it stays, and it goes where all that it says is `max`."""
    there = [line.split(" ") for line in now.get("io.max", "").split("\n") if line]
    lines = {first: dict(word.split("=") for word in rest) for first, *rest in there}
    disc, *words = text.split(" ")
    written = [word.partition("=")[::2] for word in words]
    if disc not in DISCS or not written or not all(key in KEYS and least_kept(key, value) for key, value in written):
        return None
    kept = {**dict.fromkeys(KEYS, MAX), **lines.get(disc, {}), **{key: least_kept(key, value) for key, value in written}}
    lines[disc] = kept if {*kept.values()} != {MAX} else None
    return "\n".join(f"{disc} " + " ".join(f"{key}={kept[key]}" for key in KEYS) for disc, kept in lines.items() if kept)


def least_kept(key, value):
    """As what a number is shown that isn't below two; or None."""
    number = number_of(value, 2, 2 ** 64 - 1)
    return MAX if value == MAX or number is not None and number >= MOST[key] else None if number is None else str(number)


def refused(_text, _now):
    """There is no resource, or no device, that a line could name."""


TAKERS = {
    "cgroup.freeze": flag, IDLE: flag, "cpu.max": bandwidth, "cpu.max.burst": burst, NICE: nice, "cpuset.cpus": listed,
    "cpuset.cpus.exclusive": listed, "cpuset.mems": listed, PARTITION: partition, "io.max": of_discs, "io.weight": default_weight,
    **dict.fromkeys(UCLAMP, percent), WRITEBACK: flag, "misc.max": refused, "rdma.max": refused,
    **{f"{name}{end}": in_whole(size) for name, size in SIZES.items() for end in (".max", ".rsvd.max", ".high")},
}


def turned_by(file, text, now):
    """The files that show something else than before after a text was written to one, where a cgroup shows this now; or None where
    the text is refused. Of a file without a row here nothing is known: no kernel has been seen that has it."""
    if file == WEIGHT:
        return None if now.get(IDLE) == "1" else {NICE: nice_of(text)}
    kept = TAKERS.get(file, refused)(text, now)
    if kept is None:
        return None
    if file == IDLE and kept != now.get(IDLE):
        return {IDLE: kept, NICE: "19" if kept == "1" else "0"}
    return {file: kept}


def nice_of(weight):
    """The nice value whose weight is nearest, and of two that are as near the higher weight's."""
    wanted = (weight * 1024 + 50) // 100
    return str(min(range(40), key=lambda at: abs(WEIGHTS[at] - wanted)) - 20)


def weights_of(now):
    """What `cpu.weight` may show where its cgroup shows this of the two files that turn it."""
    if now.get(IDLE) == "1":
        return (0, 1)
    return (round(WEIGHTS[int(now[NICE]) + 20] * 100 / 1024),) if NICE in now else ()


def are_alike(file, one, other):
    """Whether two texts are the same, whatever the order of lines."""
    return one == other or file == "io.max" and sorted(one.split("\n")) == sorted(other.split("\n"))


def is_turned_elsewhere(file, one, other):
    """Whether a partition became invalid, or valid again, by what else its cgroup or others have."""
    return file == PARTITION and one != other and one.split(" ")[0] == other.split(" ")[0]
