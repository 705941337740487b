#!/bin/sh
# Compares the list in docs/ASSURANCE.md of the definitions that the theorem reaches with what checks/audit.py finds now.
# Usage: checks/audit.sh. Needs python3.
. "$(dirname -- "$0")/common.sh"
# (no program is tried, so any will do)
begin /bin/sh
trying 'the list of docs/ASSURANCE.md'
python3 -B "$top/checks/audit.py" --check || failure 'docs/ASSURANCE.md has another list: checks/audit.py --write renews it'
ended
