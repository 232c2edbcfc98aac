#!/bin/sh
# Runs Go's tests with netrev-go in any CI:  examples/ci/test.sh [FLAGS OF GO TEST] ./...
#
# The status is Go's own. In out/netrev are a recording of each test that failed, tests.json and tests.xml.
mkdir -p out/netrev
exec netrev-go -o out/netrev --json out/netrev/tests.json --junit out/netrev/tests.xml test "$@"
