#!/usr/bin/env bash
# contrib/multicast.sh MESH: three routers on one wire find each other by the group 224.0.0.109, port 269, with no list of peers. It needs root
# and iproute2, takes some ten seconds and prints the three reports.
#
# The program joins no group; the kernel does (`autojoin`). The local address of the socket is the group, so a frame that is sent to it comes to
# each router on the wire, and its sender is the interface's own address by the route to the group. One router in a namespace has one such
# interface, since two would bind the same address. The status is 0, 1 where something failed, or 2 where the words are wrong.
set -u
case ${1-} in
-h | --help) sed -n '2,/^set/{/^set/d; s/^# \{0,1\}//p}' "${BASH_SOURCE[0]}"; exit 0 ;;
esac
[ $# = 1 ] || { echo "multicast: usage: contrib/multicast.sh MESH" >&2; exit 2; }
[ -x "$1" ] || { echo "multicast: no program $1" >&2; exit 2; }
[ "$(id -u)" = 0 ] || { echo "multicast: root is needed" >&2; exit 1; }
mesh=$(readlink -f -- "$1") front=mc$$ group=224.0.0.109
reports=$(mktemp -d) || exit 1
trap 'for name in hub a b c; do ip netns del "$front-$name" 2>/dev/null; done; rm -rf "$reports"' EXIT

# A router's namespace, joined with the wire by an interface w0, of which the kernel hears the group.
join() {
    local name=$1 address=$2 space=$front-$1
    ip netns add "$space" &&
        ip -n "$front-hub" link add "p$name" type veth peer name w0 netns "$space" &&
        ip -n "$front-hub" link set "p$name" master air up &&
        ip -n "$space" link set lo up && ip -n "$space" link set w0 up &&
        ip -n "$space" addr add "$address/24" dev w0 &&
        ip -n "$space" addr add "$group/32" dev w0 autojoin &&
        ip -n "$space" route del local "$group" dev w0 table local &&
        ip -n "$space" route add 224.0.0.0/4 dev w0 src "$address"
}

router() {
    ip netns exec "$front-$1" "$mesh" run --turns 4294967295 << END
end_ms = 9000
[router]
name = "$1"
[[router.interface]]
name = "w0"
addresses = ["$2"]
local = "$group:269"
peers = ["$group:269"]
END
}

if ! { ip netns add "$front-hub" && ip -n "$front-hub" link add air type bridge mcast_snooping 0 && ip -n "$front-hub" link set air up &&
    join a 10.0.0.1 && join b 10.0.0.2 && join c 10.0.0.3; }; then
    echo "multicast: the wire could not be made" >&2
    exit 1
fi
router a 10.0.0.1 > "$reports/a" & running=($!)
router b 10.0.0.2 > "$reports/b" & running+=($!)
router c 10.0.0.3 > "$reports/c" & running+=($!)
status=0
for process in "${running[@]}"; do wait "$process" || status=1; done
cat "$reports"/[abc]
exit $status
