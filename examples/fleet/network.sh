#!/bin/sh
# Drives a fleet whose robots have a network: each is in a network namespace of its own, behind a cable that loses, repeats and delays frames.
# It needs root and Debian's iproute2, and takes down all that it made, also when it is interrupted.

usage() {
    cat <<'END'
Usage: network.sh [--cables netem|switch|plain] [--loss PERCENT] [--twice PERCENT] [--delay LEAST MOST] [--calm] [--scale] [--dry-run] [OPTIONS]

  --cables KIND         netem: veth pairs on a bridge, with `tc netem` on each; switch: a TAP device a robot, and switch.py between them, which does
                        the same to whole frames; plain: the veth pairs alone (netem where the kernel has it, else switch)
  --loss, --twice       how many frames in a hundred are lost (30) and come twice (10)
  --delay LEAST MOST    how long a frame takes, in milliseconds, so that frames overtake one another (20 200)
  --calm                kills nothing and cuts nothing, where OPTIONS don't say so, and drives fast
  --scale               60 robots on the plan of depot.plan, which speak less often
  --dry-run             shows the commands that make and take down the network, and runs none

OPTIONS are those of robots.py, as --link, --tell, --seed, --seconds. Where --calm isn't given, processes are killed, cables cut and the broker
stopped: --moves 0.3 --kills 1 --cuts 0.3 --stops 0.1. Status: that of robots.py; 3 where root, iproute2 or a device is missing.
END
}

here=$(dirname -- "$(readlink -f -- "$0")")
cables='' loss=30 twice=10 least=20 most=200 scale=0 calm=0 dry=0 seed=1 robots=12

say() { echo "network.sh: $*" >&2; }
bad() { say "$*"; exit 2; }
is_number() { case $1 in '' | *[!0-9]*) return 1 ;; esac; }

# Takes its own options, and leaves those of robots.py.
count=$#
while [ "$count" -gt 0 ]; do
    word=$1
    shift
    count=$((count - 1))
    case $word in
    -h | --help) usage; exit 0 ;;
    --scale) scale=1 robots=60; continue ;;
    --calm) calm=1; continue ;;
    --dry-run) dry=1; continue ;;
    --cables | --loss | --twice | --delay | --seed | --robots)
        [ "$count" -gt 0 ] || bad "$word wants a value"
        case $word in
        --cables) cables=$1 ;;
        --loss) loss=$1 ;;
        --twice) twice=$1 ;;
        --seed) seed=$1 ;;
        --robots) robots=$1 ;;
        --delay)
            [ "$count" -gt 1 ] || bad "--delay wants two values"
            least=$1
            shift
            count=$((count - 1))
            most=$1
            ;;
        esac
        shift
        count=$((count - 1))
        continue
        ;;
    esac
    set -- "$@" "$word"
done
for value in "$loss" "$twice" "$least" "$most" "$seed" "$robots"; do
    is_number "$value" || bad "'$value' is no number"
done
if [ "$loss" -gt 100 ] || [ "$twice" -gt 100 ]; then bad "--loss and --twice are at most 100"; fi
[ "$least" -le "$most" ] || bad "--delay wants the least time first"
if [ "$robots" -lt 1 ] || [ "$robots" -gt 200 ]; then bad "--robots is from 1 to 200"; fi
case $cables in '' | netem | switch | plain) ;; *) bad "--cables is netem, switch or plain" ;; esac

# Beginning with these, so that what stands in OPTIONS counts.
set -- --seed "$seed" --robots "$robots" "$@"
[ "$calm" = 1 ] || set -- --moves 0.3 --kills 1 --cuts 0.3 --stops 0.1 "$@"
[ "$scale" = 0 ] || set -- --map "$here/depot.map" --plan "$here/depot.plan" --every 2 "$@"

skip() {
    say "skipped: $*"
    exit 3
}
if [ "$dry" = 0 ]; then
    [ "$(id -u)" = 0 ] || skip "it makes network namespaces, which needs root"
    for tool in ip tc; do
        command -v "$tool" >/dev/null 2>&1 || skip "there is no $tool here, which Debian has in iproute2"
    done
    ip netns list >/dev/null 2>&1 || skip "this kernel has no network namespaces"
fi
command -v python3 >/dev/null 2>&1 || skip "there is no python3 here"

prefix=mapf$$-
hub=${prefix}hub
made='' switch='' fleet='' folder='' taps=''

# Does a command, or shows it.
run() {
    if [ "$dry" = 1 ]; then
        echo "$*"
    else
        "$@" || { say "failed: $*"; exit 3; }
    fi
}

# Ends what this script started, by its number.
end() {
    [ -n "$1" ] || return 0
    kill -TERM "$1" 2>/dev/null
    wait "$1" 2>/dev/null
}

clean() {
    trap '' INT TERM HUP
    end "$fleet"
    end "$switch"
    for name in $made; do
        if [ "$dry" = 1 ]; then
            echo "ip netns delete $name"
            continue
        fi
        [ -e "/run/netns/$name" ] || continue
        # Where robots.py was killed, what it had started is still there.
        for process in $(ip netns pids "$name" 2>/dev/null); do
            kill -KILL "$process" 2>/dev/null
        done
        ip netns delete "$name"
    done
    [ -z "$folder" ] || rm -rf -- "$folder"
}
trap clean EXIT
trap 'exit 129' HUP
trap 'exit 130' INT
trap 'exit 143' TERM

make_namespace() {
    made="$made $1"
    run ip netns add "$1"
    run ip -n "$1" link set lo up
}

# A kernel without netem says so of the first one that is asked for.
has_netem() {
    [ "$dry" = 0 ] && tc -n "$hub" qdisc add dev lo root netem loss 1% 2>/dev/null && tc -n "$hub" qdisc delete dev lo root
}

hardware() { printf '02:77:00:00:00:%02x' "$1"; }

# The device `link` of a namespace, by which the one with this number is reached.
make_end() {
    name=$1 number=$2
    make_namespace "$prefix$name"
    if [ "$cables" = switch ]; then
        run ip -n "$prefix$name" tuntap add dev link mode tap
    else
        run ip -n "$hub" link add "link$name" type veth peer name link netns "$prefix$name"
        run ip -n "$hub" link set "link$name" master bridge up
    fi
    run ip -n "$prefix$name" link set dev link address "$(hardware "$number")"
    run ip -n "$prefix$name" address add "10.77.0.$number/24" dev link
    run ip -n "$prefix$name" link set dev link up
    if [ "$cables" = netem ]; then
        # Toward the robot; each frame is delayed by a time of its own, and so overtakes others.
        run tc -n "$hub" qdisc add dev "link$name" root netem limit 10000 \
            delay $(((least + most) / 2))ms $(((most - least) / 2))ms loss "$loss%" duplicate "$twice%"
    fi
}

# Who is where is known from the start, so that what is measured is the messages alone.
know_the_others() {
    if [ "$dry" = 1 ]; then
        echo "ip -n $prefix$1 -batch -  # a line for each other: neighbour add ADDRESS lladdr HARDWARE nud permanent dev link"
        return
    fi
    for number in $numbers; do
        echo "neighbour add 10.77.0.$number lladdr $(hardware "$number") nud permanent dev link"
    done | ip -n "$prefix$1" -batch - || { say "failed: ip -n $prefix$1 -batch"; exit 3; }
}

make_network() {
    make_namespace "$hub"
    if [ -z "$cables" ]; then
        if has_netem; then cables=netem; else cables=switch; fi
    fi
    case $cables in
    netem) say "cables are veth pairs with tc netem" ;;
    plain) say "cables are veth pairs, which lose nothing" ;;
    switch) say "cables are TAP devices with switch.py between them, and no tc netem" ;;
    esac
    if [ "$cables" != switch ]; then
        run ip -n "$hub" link add bridge type bridge mcast_snooping 0
        run ip -n "$hub" link set bridge up
    fi
    numbers='' names='' number=0
    while [ "$number" -lt "$robots" ]; do
        names="$names $number"
        number=$((number + 1))
        numbers="$numbers $number"
    done
    number=1
    for name in $names; do
        make_end "$name" "$number"
        number=$((number + 1))
    done
    make_end broker 254
    names="$names broker" numbers="$numbers 254"
    for name in $names; do
        know_the_others "$name"
    done
}

start_switch() {
    for name in $names; do
        taps="$taps $name=$prefix$name"
    done
    # The words are names without blanks.
    # shellcheck disable=SC2086
    set -- python3 "$here/switch.py" "$room/switch" $taps --loss "$(percent "$loss")" --twice "$(percent "$twice")" \
        --least "$least" --most "$most" --seed "$seed"
    if [ "$dry" = 1 ]; then
        echo "$*"
        return
    fi
    # Its input never ends, but with this script.
    mkfifo "$folder/input" || exit 3
    "$@" <"$folder/input" >"$folder/ready" &
    switch=$!
    exec 9>"$folder/input"
    while ! grep -q ready "$folder/ready" 2>/dev/null; do
        kill -0 "$switch" 2>/dev/null || { say "the switch doesn't start"; exit 3; }
        sleep 0.05
    done
}

percent() { printf '%d.%02d' $(($1 / 100)) $(($1 % 100)); }

room=FOLDER
if [ "$dry" = 0 ]; then
    folder=$(mktemp -d "${TMPDIR:-/tmp}/mapf-network-XXXXXX") || exit 3
    room=$folder
    # What robots.py puts there is gone too, where it was killed.
    export TMPDIR="$folder"
fi
make_network
where=veth:$hub
if [ "$cables" = switch ]; then
    start_switch
    where=switch:$room/switch
fi
set -- python3 "$here/robots.py" --namespaces "$prefix" --cables "$where" "$@"
if [ "$dry" = 1 ]; then
    echo "$*"
    exit 0
fi
"$@" 9>&- &
fleet=$!
wait "$fleet"
status=$?
fleet=''
exit "$status"
