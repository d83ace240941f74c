#!/bin/sh
# Waits until the service listens, or has ended: what a unit starts behind it (ExecStartPost). It takes one connection.
#
#     listening.sh PORT
until curl -s -o /dev/null -m 60 "http://127.0.0.1:$1/image/timestamp.json"; do
    kill -0 "$MAINPID" 2> /dev/null || exit 0
    sleep 0.2
done
