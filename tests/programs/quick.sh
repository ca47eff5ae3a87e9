#!/bin/sh
# Runs the first command of README, which compiles the programs and libv7 without proof, and shows a session; then tries a release of them.
#
# tier: check, 220 seconds; for: tools/sketch.py tools/dist.sh packaging README.md; needs: git cc venv cmark-gfm mandoc
cd "$(dirname "$0")/../.." && make quick && sh tools/dist.sh -t
