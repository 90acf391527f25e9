#!/usr/bin/env python3
"""Tries the gateway from outside, as callers and proxies have it: checks/deciding.py [CHECKOUT]

It is a process of its own, before built nodes and before nodes that are played, of which some answer wrongly. Its
answers are held against a model that is written from docs/DECIDING.md. Without Debian's tornado its cases are skipped,
and say so; without nginx those behind nginx. --requests NUMBER makes more.
"""
import runner
import calls_tried
import heads_tried
import nodes_tried
import policies_tried
import proxies_tried
import trials_tried
from model_tried import REQUESTS


def cases(given):
    """The cases, in the order of what rests on what."""
    parts = (policies_tried, calls_tried, nodes_tried, heads_tried, proxies_tried, trials_tried)
    return [case for part in parts for case in part.cases(given)]


def options(parser):
    parser.add_argument("--requests", type=int, default=REQUESTS, metavar="NUMBER")


if __name__ == "__main__":
    runner.main("deciding", __doc__, cases, options)
