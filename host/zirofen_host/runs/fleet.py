"""From the options of `fleet` to what the reports of many hosts come to."""
import argparse

from zirofen_host.options import FleetOptions
from zirofen_host.show import fleet_run


def run(given: argparse.Namespace) -> int:
    given.format = tuple(given.format)
    return fleet_run.tell(FleetOptions(**vars(given)))
