#!/bin/sh
# The test of a commit:  try.sh COMMIT   0: fast; 1: slow; 125: it can't be told. A table stands for building the commit
# and running the benchmark.
case $1 in
  30d6fb) time=412 ;;
  b81c5e) time=410 ;;
  4f9a02) time=413 ;;
  c66d38) time=436 ;;
  09e7b4) time=437 ;;
  *) exit 125 ;;
esac
[ "$time" -lt 425 ]
