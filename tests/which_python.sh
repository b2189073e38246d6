#!/usr/bin/env bash
# which_python.sh: prints the Python that the package is tested with: one that can draw pictures too if there is one.
for python in python3 /usr/bin/python3; do
    if "$python" -c 'import sys, matplotlib; sys.exit(sys.version_info < (3, 11))' 2> /dev/null; then
        echo "$python"
        exit
    fi
done
echo python3
