#!/usr/bin/env python3
"""Runs the repository's own checks, those beside the proofs. The last line is 'N passed, M failed'."""

import sys

import check_paths
import check_program
import check_promises
import check_refused
import check_serving

CHECKS = (check_promises, check_paths, check_refused, check_program, check_serving)


def main():
    passed, failed = (sum(counts) for counts in zip(*(check.run() for check in CHECKS)))
    print(f"{passed} passed, {failed} failed")
    return 1 if failed else 0


if __name__ == "__main__":
    sys.exit(main())
