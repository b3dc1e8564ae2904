#!/bin/sh
# Prepares a machine of Gradescope for `run_autograder`, once, as root: installs Python, makes a user `compiler` without privileges, and closes the repository,
# the folder `source` beside that script, to this user. The status is 0, or that of the command that failed. It needs apt-get only if there is no Python 3.
set -e
cd "${1:-/autograder}"
if ! type python3 >/dev/null 2>&1; then
    apt-get update
    apt-get install -y --no-install-recommends python3
fi
id compiler >/dev/null 2>&1 || useradd --system --shell /usr/sbin/nologin compiler
chmod go-rwx source
