# The commands of cephmon and the rule on their arguments. ./cephmon, ./preview, launch/manual and the installed command source this. The rule only
# explains a fault before the program starts, in a sentence: the program judges all arguments itself.

# The commands, one per line: the name, the arguments in order, the standard streams, what it works on, and what it does. Help, manual page, preview and
# the check of arguments are made from this table and the next.
readonly COMMANDS='
node          | RANK MONITORS RULE ADDRESSES DISK_A DISK_B TURNS |               | network | serves as one monitor of a quorum, over UDP, until it has made TURNS iterations
follow        | SERVICE ADDRESSES TURNS                          |               | network | follows the map of a service of a running quorum, and writes one line per newer version
scrub         | RANK MONITORS DISK_A DISK_B                      | > REPORT      | store   | writes a report of what a stopped monitor shares with the others
scrub-compare |                                                  | < TWO_REPORTS | streams | reads two reports, one after the other, and writes where they differ
dump-keys     | RANK MONITORS DISK_A DISK_B                      |               | store   | writes one line per key of a stopped monitor
dump-paxos    | RANK MONITORS DISK_A DISK_B FROM TO              |               | store   | writes the committed versions of a stopped monitor from FROM to TO, and the changes of each
store-export  | RANK MONITORS DISK_A DISK_B                      | > EXPORT      | store   | writes the whole store of a stopped monitor as one file
store-import  | RANK MONITORS DISK_A DISK_B                      | < EXPORT      | store   | makes a store from an export, in two empty or missing files
replay        |                                                  | < SCHEDULE    | streams | replays a schedule of 1 to 15 monitors, and writes its trace
made          | NUMBER EVENTS                                    |               | streams | replays the generated schedule of NUMBER, with EVENTS events, and writes a summary in one line of JSON
'
# The arguments, one per line: the name, the bounds of a number, and what it is. A row whose name begins with a command and a colon has the bounds of
# that command.
readonly ARGUMENTS='
RANK         | 0 MONITORS-1          | the rank of the monitor, below MONITORS
MONITORS     | 1 15                  | the number of monitors
RULE         |                       | who may lead, and whether scores count: classic, disallow=RANKS, connectivity or connectivity=RANKS
SERVICE      |                       | the service: kv or log
ADDRESSES    |                       | an address for each monitor in order of rank, joined by commas, as 127.0.0.1:6789,127.0.0.1:6790,127.0.0.1:6791
DISK_A       |                       | one of the two files of the store; a missing one is created
DISK_B       |                       | the other one
TURNS        | 1 4611686018427387904 | the number of iterations, or never
follow:TURNS | 1 2305843009213693952 |
FROM         | 0 TO                  | the first version, not above TO
TO           | 0 4611686018427387904 | the last version
NUMBER       | 0 4611686018427387904 | the number of a generated schedule
EVENTS       | 1 100000              | the number of its events
'
readonly STATUSES='Status: 0 done, 2 arguments refused, 3 schedule refused, 4 to 7 an I/O error of input, output, a disk or the link, 8 not a store,
9 another monitor'\''s store or export, 10 a number is exhausted, 11 all iterations made, 12 out of memory, 13 store full, 14 not two reports,
15 a file is not empty, 16 not an export'

# The columns of both tables by name.
declare -A FORMS=() STREAMS=() WORKS_ON=() DOES=() BOUNDS=() MEANS=()
COMMAND_NAMES=() ARGUMENT_NAMES=()

# trimmed TEXT: without blanks around it, in REPLY
trimmed() {
    REPLY=${1#"${1%%[! ]*}"}
    REPLY=${REPLY%"${REPLY##*[! ]}"}
}

# read_tables: fills the columns
read_tables() {
    local line name form streams works_on does bounds means
    while IFS='|' read -r name form streams works_on does; do
        [ -n "$name" ] || continue
        trimmed "$name" && name=$REPLY && COMMAND_NAMES+=("$name")
        trimmed "$form" && FORMS[$name]=$REPLY
        trimmed "$streams" && STREAMS[$name]=$REPLY
        trimmed "$works_on" && WORKS_ON[$name]=$REPLY
        trimmed "$does" && DOES[$name]=$REPLY
    done <<<"$COMMANDS"
    while IFS='|' read -r name bounds means; do
        [ -n "$name" ] || continue
        trimmed "$name" && name=$REPLY
        trimmed "$bounds" && BOUNDS[$name]=$REPLY
        trimmed "$means" && MEANS[$name]=$REPLY
        [[ $name = *:* ]] || ARGUMENT_NAMES+=("$name")
    done <<<"$ARGUMENTS"
}
read_tables

# bounds_of COMMAND NAME: the least and the greatest number, as the table has them, or nothing
bounds_of() { printf '%s' "${BOUNDS[$1:$2]-${BOUNDS[$2]-}}"; }

# meaning_of NAME: what an argument is, with its bounds
meaning_of() {
    local least most text=${MEANS[$1]} key
    read -r least most <<<"${BOUNDS[$1]}"
    # bounds by another argument are in the text already
    [[ ! $most =~ ^[0-9]+$ ]] || text+=": $least to $most"
    for key in "${!BOUNDS[@]}"; do
        [[ $key != *:"$1" ]] || text+=", of ${key%%:*} ${BOUNDS[$key]/ / to }"
    done
    printf '%s' "$text"
}

# help_of CALL [WORKS_ON]: the usage of the commands, all or those that work on this, and their arguments
help_of() {
    local name used=' '
    printf 'usage: %s COMMAND ARGUMENT..\n' "$1"
    for name in "${COMMAND_NAMES[@]}"; do
        [ "${2-${WORKS_ON[$name]}}" = "${WORKS_ON[$name]}" ] || continue
        trimmed "$name ${FORMS[$name]}"
        trimmed "$REPLY ${STREAMS[$name]}"
        printf '\n  %s\n      %s' "$REPLY" "${DOES[$name]}"
        used+="${FORMS[$name]} "
    done
    printf '\n\n'
    for name in "${ARGUMENT_NAMES[@]}"; do
        [[ $used != *" $name "* ]] || printf '  %-9s  %s\n' "$name" "$(meaning_of "$name")"
    done
}

# version_of FILE PROGRAM: the version in the file, and the digest of the program, which differs from build to build
version_of() {
    local digest
    printf 'cephmon %s\n' "$(cat "$1")"
    [ ! -f "$2" ] || { digest=$(sha256sum <"$2") && printf 'sha256 of the program %s\n' "${digest%% *}"; }
}

# taken ARGUMENT..: the arguments as the program takes them, in the array TAKEN: its TURNS are a number
taken() {
    local names at least most
    TAKEN=("$@")
    [ -n "${1-}" ] || return 0
    read -ra names <<<"${FORMS[${1-}]-}"
    for at in "${!names[@]}"; do
        [ "${names[at]}:${TAKEN[at + 1]-}" = TURNS:never ] || continue
        read -r least most <<<"$(bounds_of "$1" TURNS)"
        TAKEN[at + 1]=$most
    done
}

# is_within LEAST ARGUMENT MOST: the argument is a decimal number without a leading zero, within these bounds
is_within() {
    [[ $2 =~ ^(0|[1-9][0-9]*)$ ]] && is_at_most "$1" "$2" && is_at_most "$2" "$3"
}

# is_at_most NUMBER NUMBER: the first number isn't greater. They may be longer than the shell's own numbers.
is_at_most() { [ ${#1} -lt ${#2} ] || { [ ${#1} = ${#2} ] && [[ ! $1 > $2 ]]; }; }

# are_ranks LIST MONITORS: ascending ranks of this quorum, joined by commas
are_ranks() {
    local rank before=-1 ranks
    [[ $1 =~ ^(0|[1-9][0-9]?)(,(0|[1-9][0-9]?))*$ ]] || return
    IFS=, read -ra ranks <<<"$1"
    for rank in "${ranks[@]}"; do
        [ "$rank" -gt "$before" ] && [ "$rank" -lt "$2" ] || return
        before=$rank
    done
}

is_rule() {
    case $1 in
    classic | connectivity) ;;
    disallow=* | connectivity=*) are_ranks "${1#*=}" "$2" ;;
    *) return 1 ;;
    esac
}

is_address() {
    local host port=${1##*:} number numbers
    host=${1%:*}
    [[ $1 = *:* && $host =~ ^[0-9]+(\.[0-9]+){3}$ ]] && is_within 1 "$port" 65535 || return
    IFS=. read -ra numbers <<<"$host"
    for number in "${numbers[@]}"; do is_within 0 "$number" 255 || return; done
}

# fault_of_addresses COMMAND LIST MONITORS: what is wrong with the addresses, or nothing. A client's number of monitors is that of its addresses.
fault_of_addresses() {
    local address addresses
    IFS=, read -ra addresses <<<"$2,"
    for address in "${addresses[@]}"; do
        is_address "$address" && continue
        printf "'%s' is no address: each is four numbers up to 255, a colon and a port from 1 to 65535, such as 127.0.0.1:6789" "$address"
        return
    done
    if [ "$1" = follow ]; then
        [ "${#addresses[@]}" -le 15 ] || printf 'there are %d, but there must be one for each of 1 to 15 monitors' "${#addresses[@]}"
    elif [ "${#addresses[@]}" != "$3" ]; then
        printf 'there are %d, but there must be one for each of the %d monitors, joined by commas' "${#addresses[@]}" "$3"
    fi
}

# fault_of_number COMMAND NAME ARGUMENT MONITORS TO: what is wrong with a number, or nothing
fault_of_number() {
    local least most more=
    [ "$2:$3" != TURNS:never ] || return 0
    read -r least most <<<"$(bounds_of "$1" "$2")"
    case $most in
    MONITORS-1) most=$(($4 - 1)) more=', below MONITORS' ;;
    TO) most=$5 more=', and not above TO' ;;
    esac
    [ "$2" != TURNS ] || more=', or never'
    is_within "$least" "$3" "$most" || printf 'it must be a number from %s to %s%s' "$least" "$most" "$more"
}

# fault_of COMMAND NAME ARGUMENT MONITORS TO: what is wrong with the argument of this name, or nothing
fault_of() {
    case $2 in
    RULE) is_rule "$3" "$4" || printf 'it must be classic, disallow=RANKS, connectivity or connectivity=RANKS, with ascending ranks below %d joined by commas' "$4" ;;
    SERVICE) [ "$3" = kv ] || [ "$3" = log ] || printf 'it must be kv or log' ;;
    ADDRESSES) fault_of_addresses "$1" "$3" "$4" ;;
    DISK_A | DISK_B) ;;
    *) fault_of_number "$@" ;;
    esac
}

# explained ARGUMENT..: what is wrong with the arguments, in a sentence, or nothing
explained() {
    local LC_ALL=C argument command=${1-} names name fault monitors=15 to at=0
    read -r fault to <<<"${BOUNDS[TO]}"
    [ $# != 0 ] || { printf 'a command is missing'; return; }
    for argument; do
        [ -n "$argument" ] || { printf 'an argument is empty'; return; }
        [[ $argument != -* ]] || { printf "'%s' begins with a hyphen, which no argument does" "$argument"; return; }
        [ ${#argument} -le 4096 ] || { printf 'an argument is longer than 4096 bytes'; return; }
    done
    [ -n "${FORMS[$1]+is there}" ] || { printf "'%s' is no command: the commands are %s" "$1" "${COMMAND_NAMES[*]}"; return; }
    read -ra names <<<"${FORMS[$1]}"
    [ ${#names[@]} = $(($# - 1)) ] || {
        case ${#names[@]} in
        0) printf '%s takes no arguments, %d given' "$1" $(($# - 1)) ;;
        *) printf '%s takes %d arguments, %d given: %s' "$1" ${#names[@]} $(($# - 1)) "$1 ${FORMS[$1]}" ;;
        esac
        return
    }
    shift
    for name in "${names[@]}"; do
        at=$((at + 1))
        if [ "$name" = MONITORS ] && is_within 1 "${!at}" 15; then monitors=${!at}; fi
        if [ "$name" = TO ] && is_within 0 "${!at}" "$to"; then to=${!at}; fi
    done
    for name in "${names[@]}"; do
        fault=$(fault_of "$command" "$name" "$1" "$monitors" "$to")
        [ -z "$fault" ] || { printf "%s is '%s': %s" "$name" "$1" "$fault"; return; }
        shift
    done
}
