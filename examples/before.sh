#!/bin/sh
# Before a subtree is handed out, does it hold? What would be done, a line each, is asked of a host, or of a text as here. Run from the
# top of the repository; with the packages installed both are `zirofen-host` and `zirofen`.
cat >/tmp/changes.$$ <<CHANGES
mkdir /c0/job
chown /c0/job dir 1002:1002
chown /c0/job cgroup.procs 1002:1002
CHANGES
host/zirofen-host plan --tree examples/delegation.toml --ops /tmp/changes.$$
case $? in
    0) echo 'hand it out' ;;
    *) echo 'keep it' ;;
esac
rm /tmp/changes.$$
