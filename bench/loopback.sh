#!/usr/bin/env bash
# Loads two brokers with messages over 127.0.0.1, in turn at each load: `mqtt serve`, and mosquitto
# if it is installed. Prints a table of the messages a second that each of them delivers, then the
# latencies. loopback_load.c describes the load.
#
#     bench/loopback.sh MQTT [DELIVERIES]
#
# Each run delivers the given number of messages with quality of service 2, or 100,000; twice as
# many with 1 and four times as many with 0. It has a broker of its own, at a free port, which ends
# with it. The status is 1 if a run failed; the others are made all the same.
set -u
program=${1:?the first argument is the program mqtt}
deliveries=${2:-100000}
load_source=$(dirname "$0")/loopback_load.c
other=$(PATH=$PATH:/usr/sbin:/usr/local/sbin command -v mosquitto)
brokers=(mqtt ${other:+mosquitto})
broker=
load=
runs=0
wrong=0

case $deliveries in
'' | *[!0-9]*) echo "loopback: how many messages are to be delivered is a number, not $deliveries" >&2 && exit 2 ;;
esac
command -v "$program" >/dev/null || { echo "loopback: there is no program $program" >&2 && exit 2; }

# Ends the load and the broker that are there.
end_all() {
    for child in $load $broker; do
        kill "$child" 2>/dev/null
        wait "$child" 2>/dev/null
    done
    load=
    broker=
}

folder=$(mktemp -d) || exit 1
trap 'end_all; rm -rf "$folder"' EXIT
trap 'exit 130' INT
trap 'exit 143' HUP TERM PIPE
# shellcheck disable=SC2086
${CC:-cc} -std=c11 -Wall -Wextra -O2 -o "$folder/load" "$load_source" || exit 1

# Whether the broker ends by itself, within ten seconds.
ends() {
    local nth
    for ((nth = 0; nth < 200; nth++)); do
        kill -0 "$broker" 2>/dev/null || return 0
        sleep 0.05
    done
    return 1
}

# Starts `mqtt serve` for this number of connections, each with a worker, and notes its port.
start_mqtt() {
    local nth
    : >"$folder/broker"
    "$program" serve --port 0 --connections "$1" --workers "$1" >"$folder/broker" 2>&1 &
    broker=$!
    port=
    for ((nth = 0; nth < 500; nth++)); do
        port=$(sed -n 's/^listening 127\.0\.0\.1:\([0-9]*\)$/\1/p' "$folder/broker")
        [ -z "$port" ] || return 0
        kill -0 "$broker" 2>/dev/null || return 1
        sleep 0.01
    done
    return 1
}

# Starts mosquitto. Like `mqtt serve` it stores nothing on disk, drops no message, and sends its
# bytes at once.
start_mosquitto() {
    port=$("$folder/load" port) || return 1
    cat >"$folder/mosquitto.conf" <<END
listener $port 127.0.0.1
allow_anonymous true
persistence false
max_inflight_messages 0
max_queued_messages 0
set_tcp_nodelay true
END
    "$other" -c "$folder/mosquitto.conf" >"$folder/broker" 2>&1 &
    broker=$!
}

# `mqtt serve` has served all its connections and ends by itself; mosquitto is ended.
finish_mqtt() {
    ends || { fault="serve did not end"; return; }
    wait "$broker" || fault="serve ended with status $?: $(tail -n 1 "$folder/broker")"
    grep -qx "served $1" "$folder/broker" || fault="serve printed: $(tail -n 1 "$folder/broker")"
    broker=
}

finish_mosquitto() {
    kill -0 "$broker" 2>/dev/null || fault="mosquitto ended: $(tail -n 1 "$folder/broker")"
}

# Loads a broker for this number of connections: `load_broker BROKER CONNECTIONS WORDS`. WORDS are
# the arguments of the load after its port. Its output is in $told, and an error in $fault.
load_broker() {
    local name=$1 connections=$2
    shift 2
    told=''
    fault=''
    runs=$((runs + 1))
    if "start_$name" "$connections"; then
        "$folder/load" "$port" "$@" >"$folder/told" 2>"$folder/fault" &
        load=$!
        wait "$load" || fault=$(tail -n 1 "$folder/fault")
        load=
        told=$(cat "$folder/told")
        [ -n "$fault" ] || "finish_$name" "$connections"
    else
        fault="it does not listen: $(tail -n 1 "$folder/broker")"
    fi
    end_all
    [ -z "$fault" ] || wrong=$((wrong + 1))
}

# A line of the table, for a broker, a quality of service, publishers and subscribers.
row() {
    local times=$((4 >> $2)) rate
    load_broker "$1" $(($3 + $4)) pairs "$3" "$4" "$2" $(((deliveries * times + $4 - 1) / $4))
    rate=${told%% messages a second*}
    printf '%-9s  %3s  %2s to %-2s  %12s  %s%s\n' "$1" "$2" "$3" "$4" "${rate:--}" "${told#* messages a second }" "${fault:+  WRONG $fault}"
}

[ -n "$other" ] || echo 'mosquitto is not installed, so only mqtt is loaded (Debian: apt-get install mosquitto)'
[ -z "$other" ] || "$other" -h | head -n 1
printf '%-9s  %3s  %-8s  %12s\n' broker QoS 'P to S' 'messages/s'
for qos in 0 1 2; do
    for pair in '1 1' '3 1' '1 3' '7 1' '1 7' '63 1' '1 63'; do
        for name in "${brokers[@]}"; do
            # shellcheck disable=SC2086
            row "$name" "$qos" $pair
        done
    done
done

echo 'How long a message takes from 1 to 1, of 500 a second:'
for qos in 0 1 2; do
    for name in "${brokers[@]}"; do
        load_broker "$name" 2 latency "$qos"
        printf '%-9s  %3s  %s%s\n' "$name" "$qos" "$told" "${fault:+  WRONG $fault}"
    done
done
echo "loopback: $wrong of $runs runs went wrong"
[ "$wrong" = 0 ]
