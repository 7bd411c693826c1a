#!/bin/sh
# Two hosts on one machine, each a network namespace: `logd serve --address` on one, and `logd forward --address` on the other, over IPv4 and IPv6. What
# the server writes is compared. Needs root, ip (Debian's iproute2), rt and python3. It leaves no namespace behind.
root=$(cd "$(dirname "$0")/.." && pwd)
logd=${LOGD:-$root/crates/logd/out/logd}
work=$(mktemp -d) || exit 1
near=logd-near-$$ far=logd-far-$$
trap 'ip netns del $near 2>/dev/null; ip netns del $far 2>/dev/null; rm -rf "$work"' EXIT
[ -x "$logd" ] || "$root/bin/logd" one </dev/null >/dev/null || exit 1
ip netns add $near && ip netns add $far || exit 1
ip link add near netns $near type veth peer name far netns $far || exit 1
for host in near far; do
    name=logd-$host-$$ number=$([ $host = near ] && echo 1 || echo 2)
    ip -n "$name" addr add 10.89.0.$number/24 dev $host
    ip -n "$name" addr add fd89::$number/64 dev $host nodad
    ip -n "$name" link set $host up
done
python3 - "$work/records" <<'P'
import struct, sys
record = lambda i: struct.pack("<BxxxIiiiII", 1, 25, 4, 7, 1, i, 5) + b"hello"
open(sys.argv[1], "wb").write(b"".join(record(i) for i in range(1000)))
P
for address in 10.89.0.1 fd89::1; do
    ip netns exec $near "$logd" serve --address $address --port 7000 --until 1 >"$work/lines" &
    sleep 1
    ip netns exec $far "$logd" forward --address $address --port 7000 <"$work/records" || exit 1
    wait $! || exit 1
    python3 - "$work/lines" <<'P' || exit 1
import sys
wanted = [f"0 1,{i} 7 LM_DEBUG: hello\n" for i in range(1000)] + ["0 closed: end\n"]
sys.exit(open(sys.argv[1]).readlines() != wanted and "other lines came")
P
    echo "$address: all lines came"
done
ip netns exec $near "$logd" serve --address 10.89.0.9 --port 7000 2>"$work/fault"
[ $? = 7 ] && echo "an address of no interface: status 7, $(cat "$work/fault")"
