"""What refusals.c says on a kernel: each of its cases is refused, and each is let through where its set-up is opened."""
import tap

SCRIPT = "refusals\nrefusals --opened\n"
SIGN = "t "


def runs_in(said):
    """The two runs of what the machine said."""
    return tap.read("\n".join(line.removeprefix(SIGN) for line in said.split("\n") if line.startswith(SIGN)))


def line_of(runs):
    """What the report says of them."""
    if len(runs) != 2:
        return "- Refusals: not asked."
    plain, opened = runs
    unknown = f"; of {', '.join(plain.skipped)} the kernel says nothing" if plain.skipped else ""
    return (f"- Refusals: {len(plain.passed)} of {plain.planned} cases are refused, and {len(opened.failed)} are let through where the "
            f"set-up lets the act through{unknown}.")
