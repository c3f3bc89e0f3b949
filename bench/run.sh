#!/bin/sh
# Measures the program on long scripts. usage: run.sh [CRL], where CRL is the program to run.
exec python3 "$(dirname "$0")/run.py" "$@"
