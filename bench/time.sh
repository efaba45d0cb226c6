#!/bin/sh
# What the machine is, and then the times: time.sh CORE ROUNDS
set -eu
echo "# $(date -u '+%Y-%m-%d %H:%M UTC'), load $(cut -d ' ' -f 1-3 /proc/loadavg), $(nproc) cores, $2 rounds on core $1"
echo "#$(grep -m 1 'model name' /proc/cpuinfo | cut -d : -f 2)"
if grep -q -w -m 1 sha_ni /proc/cpuinfo; then echo "# SHA instructions: yes"; else echo "# SHA instructions: no"; fi
echo "# $(openssl version), $(rt version | head -n 1)"
taskset -c "$1" build/driver time "$2"
echo "# load at the end $(cut -d ' ' -f 1-3 /proc/loadavg)"
