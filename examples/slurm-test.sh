#!/bin/sh
# A test for `hunt` or `play` that runs ./test-commit COMMIT on a node of a Slurm cluster:  slurm-test.sh COMMIT
# Its status is that of ./test-commit; 255 where Slurm itself failed, so that a lost node is no bad commit. What the
# test prints goes to standard error. SRUN has further words for srun, such as --constraint=NAME.
# shellcheck disable=SC2086
said=$(srun --quiet --ntasks=1 --exclusive --time=30 ${SRUN:-} \
  sh -c './test-commit "$1" >&2; echo "$?"' sh "$1") || exit 255
said=$(printf '%s\n' "$said" | tail -n 1)
case $said in '' | *[!0-9]*) exit 255 ;; esac
exit "$said"
