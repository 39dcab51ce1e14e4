#!/bin/bash
# The numbers of formats, limits, timers and turns. Where code and definitions name the same constant, a proof holds at any number; so each
# such constant stands once more in a `prove!` of its crate, and here is the list of them all, as docs/FORMATS.md and docs/STEPS.md
# have them. The script looks whether each is proved at its number, and whether a constant is missing here. It takes a
# second, and ends with status 1 at any difference.
. "$(dirname "$0")/common.bash" || exit 2

numbers() {
    cat << 'END'
nop_types MAX_OP_BYTES 640
nop_types MAX_KEY_BYTES 64
nop_types MAX_VALUE_BYTES 256
nop_types MAX_RESULT_BYTES 257
nop_types MAX_HOST_BYTES 1_400_000
nop_types MAX_SERVED 256
nop_types WINDOW 8
nop_types MAX_SLOTS 4096
nop_types MAX_LENGTH 4_294_967_295
nop_types EPOCH_STEP 4
nop_types NUMBER_END 281_474_976_710_656
nop_types MAX_QUEUED 1024
nop_types MAX_FRAGMENTS 4096
nop_types FRAGMENT_BYTES 1400
nop_types MAX_UNFINISHED 4
nop_types MAX_DATAGRAM_BYTES 1500
nop_types MAX_REPLICAS 7
nop_types MAX_SEQUENCERS 4
nop_types MAX_CONTROLLERS 4
nop_types MAX_OBSERVERS 4
nop_types MAX_CLIENTS 16
nop_types MAX_LINE_BYTES 4096
nop_types MAX_LINES 1_000_000
nop_types FIRST_MAGIC 0x4e
nop_types SECOND_MAGIC 0x4f
nop_types VERSION 3
nop_types REQUEST 1
nop_types STAMPED 2
nop_types REPLY 3
nop_types INSTALL 4
nop_types INSTALLED 5
nop_types PING 6
nop_types PONG 7
nop_types FRAGMENT 8
nop_types READ 9
nop_types ANSWER 10
nop_types KIND_PLACE 3
nop_types COUNT_PLACE 15
nop_types FRAGMENT_HEADER_BYTES 17
nop_types SLOT_LOOKUP 16
nop_types FOUND 17
nop_types GAP_COMMIT 18
nop_types GAP_REP 19
nop_types VIEW_CHANGE_REQ 20
nop_types VIEW_CHANGE 21
nop_types START_VIEW 22
nop_types SYNC_PREPARE 23
nop_types SYNC_REP 24
nop_types SYNC_COMMIT 25
kv_host GET 0x47
kv_host PUT 0x50
kv_host DELETE 0x44
kv_host SWAP 0x43
kv_host MAX_KEYS 4096
lock_host ACQUIRE 0x41
lock_host RELEASE 0x52
lock_host INSPECT 0x49
lock_host MAX_NAME_BYTES 64
lock_host MAX_LOCKS 4096
lock_host LAST_TOKEN 18_446_744_073_709_551_615
session_control MISSED_END 3
session_control RESEND_MILLIS 100
session_control PROBE_MILLIS 300
replica_core RESEND_MILLIS 50
replica_core SYNC_MILLIS 100
replica_core WATCH_MILLIS 1000
replica_core LAST_MESSAGE 18_446_744_073_709_551_607
line_reader PIECE_BYTES 4096
transcript_reader MAX_TRANSCRIPT_LINES 4_294_967_294
transcript_rows MAX_SENT_BYTES 1417
command_line MAX_CLUSTER_TURNS 10_000
resending ACK_MAGIC 0x41
resending NAMED 8
resending ACK_BYTES 27
resending MOST_WAITING 8192
resending MOST_WINDOW 36
resending MOST_IN_FLIGHT 1060
resending MOST_ON_THE_WAY 1024
resending FIRST_WINDOW 6
resending MOST_AT_ONCE 6
resending SILENCE_MICROS 1_000_000
resending LEAST_TIMEOUT_MICROS 10_000
resending MOST_TIMEOUT_MICROS 320_000
resending FIRST_TIMEOUT_MICROS 100_000
resending MOST_TRIP_MICROS 1_000_000
resending LANES 64
resending ACK_EVERY 4
resending RECENT_PARTS 72
resending MESSAGE_PLACE 5
resending INDEX_PLACE 13
resending TOPIC_PLACE 17
resending MOST_PORTS 6
resending REPEAT_MICROS 500_000
udp_ports WAIT_MILLIS 1
roll_call ASKED_FROM 281_474_976_710_656
roll_call ROUND_MILLIS 1000
roll_call SILENT_MILLIS 3000
watching SECOND_MILLIS 1000
watching WAIT_MILLIS 5000
replay MAX_DRAWN_EVENTS 100_000
linearize DEFAULT_STEPS 100_000_000
unknown_results ANY 1
braiding MAX_TRACE_LINES 4_000_000
service_words MAX_TEXT_LINES 4_294_967_294
picture BEND_WIDTH 24
audit MAX_TRACE_LINES 4_000_000
audit MAX_STEPS 999_999
admission FIRST_PLACE 4
admission SECOND_PLACE 5
admission CLIENT_PLACE 7
desk MAX_WAITING 10_000
users MAX_EVENT_BYTES 16_384
gate_core MAX_USERS 10_000
gate_core MAX_WAITING_BYTES 1_048_576
gate_core MANY_READ 4096
tcp_users MAX_CONNECTIONS 10_240
tcp_users MAX_UNSENT_BYTES 1_048_576
site_words MAX_NUMBERS 16
gate QUIET_TURNS 2
gate PATIENCE_MILLIS 1
gate MOST_DATAGRAMS 64
gate MOST_EVENTS 64
gate MOST_READS 1024
gate IDLE_MILLIS 500
gate AGAIN_MILLIS 10
gate REASSIGN_MILLIS 1_000
gate LEAST_RETRY_MILLIS 5
gate MOST_RETRY_MILLIS 200
gate FIRST_RETRY_MILLIS 50
gate LEAST_PASSED 3
service_load OPEN_PER_CORE 8
service_load RETRY_MICROS 200_000
service_load MOST_SUBMITS 1024
tool_program PROGRESS_MICROS 1_000_000
resp MAX_ARGUMENTS 32
resp MAX_ARGUMENT_BYTES 32_000
resp MAX_REQUEST_BYTES 1_048_576
host_list PLACES 36
host_list FNV_OFFSET 14_695_981_039_346_656_037
host_list FNV_PRIME 1_099_511_628_211
admission HELLO_MAGIC 0x48
admission GREETING_BYTES 23
admission MAX_CLIENT_CLAIMS 4096
admission ASK_MICROS 20_000
admission ALL_MICROS 300_000
admission ROUND_MICROS 60_000_000
admission REMIND_MICROS 500_000
END
}

# apart: constants whose number no definition names and no user meets (how much is gathered, reserved or compared), or that are made of others.
apart() {
    cat << 'END'
session_control PART_END
client_table MAX_KEPT
peer_codec HEAD_BYTES
peer_codec SENDER_AT
peer_codec LEAST_CLIENT
fragments PARTS_AHEAD
fronts MAX_PARTS
kv_parts MAX_PARTS
lock_parts MAX_PARTS
unknown_results MAX_PARTS
linearize MOST
network SHARED_LEN
network LOOKBACK
network LINE_ROOM
schedule_text MAX_OP_TEXT
schedule_text MAX_JUNK_TEXT
schedule_text MAX_KEY_TEXT
transcript_rows MAX_OP_TEXT
replay GATHERED_BYTES
picture_arrows MAX_ACTORS
host_places HOSTS_BASE
udp_ports DIGEST
udp_ports PORTS
udp_ports MOST_ACKS
udp_ports NAP_MICROS
tcp_users MOST_CALLS
tcp_users MOST_EVENTS
tcp_users USERS_END
END
}

while read -r name constant number; do
    made=$((made + 1))
    if ! cat "crates/$name"/src/*.rt | tr -s ' \n' ' ' | grep -oE 'const _: \(\) = prove!\([^;]*\);' |
        grep -qE "[( ]$constant == $number[ )]"; then
        differs "$name does not prove that $constant is $number"
    fi
done < <(numbers)

# pictures have layout alone
while IFS=: read -r file constant; do
    name=${file#crates/}
    name=${name%%/*}
    case $name in
    picture | picture_labels | drawing | *_tests) continue ;;
    esac
    if ! { numbers; apart; } | grep -qE "^$name $constant( |$)"; then
        differs "$constant of $name is not in the list"
    fi
done < <(grep -rHoE --include='*.rt' 'const [A-Z_]+: (u8|u16|u32|u64|usize) =' crates/*/src |
    sed -E 's/^([^:]+):const ([A-Z_]+): .*/\1:\2/')

concludes
