"""The second model: controllers by their names, by the words of docs/FORMATS.md and docs/MODEL.md. Written from these pages alone, as
rules.py is.
"""
# of formats 1 and 2; and of format 4, in the order used everywhere
CONTROLLERS = ("cpu", "memory", "pids")
ALL_CONTROLLERS = ("cpuset", "cpu", "io", "memory", "hugetlb", "pids", "rdma", "misc", "dmem")


def controllers_in(form):
    """The controllers of a format."""
    return ALL_CONTROLLERS if form == 4 else CONTROLLERS
