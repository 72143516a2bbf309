# What a script tells that runs fdref: ./fdref, and tools/unproved.sh, beside whose program this is installed.

tell() {
    echo "fdref: $1" >&2
}

# Says of each word that is a FIFO, or names one as --trace=FILE does, that it is waited for.
tell_fifos() {
    for word in "$@"; do
        path=${word#--trace=}
        case $path in
            # what a process has open already
            /dev/* | /proc/*) ;;
            *) [ ! -p "$path" ] || tell "$path is a FIFO: it is waited for until its other end is opened" ;;
        esac
    done
}

# Sets input to what a job reads, by its words.
find_input() {
    input=
    case ${1-} in
        replay | outcomes) input=/dev/stdin ;;
        audit | show | migrate)
            shift
            for word in "$@"; do
                case $word in
                    -*) ;;
                    *)
                        input=$word
                        return
                        ;;
                esac
            done
            ;;
    esac
}

# Says to whoever looks on that a file is no trace, or none to be migrated, since no answer tells why it is malformed at 0.
tell_header() {
    find_input "$@"
    [ -t 2 ] && [ -f "$input" ] && [ -r "$input" ] && [ "$input" != /dev/stdin ] || return 0
    begin=$(dd if="$input" bs=8 count=1 2>/dev/null | tr -d '\000')
    case $1$begin in
        migrateFDTRACE2) tell "$input is of version 2 already, which is what migrate writes" ;;
        # a whole header, or a part of it that may go on
        "$1" | *FDTRACE[12] | "$1"F | "$1"FD | "$1"FDT | "$1"FDTR | "$1"FDTRA | "$1"FDTRAC | "$1"FDTRACE) ;;
        *) tell "$input is no trace of a version that is known: it does not begin with FDTRACE1 or FDTRACE2" ;;
    esac
}

# Sets asleep to what a job that sleeps waits for, by its words, if that is known: a server for its connections, others for an
# input that is not there at once, where their output waits for nobody.
find_wait() {
    asleep=
    if [ "${1-}" = serve ]; then
        while [ $# -gt 1 ]; do
            shift
            case $1 in
                --sessions) count=${2-} ;;
                --sessions=*) count=${1#*=} ;;
                *) continue ;;
            esac
            asleep="the server ends once as many connections have come and gone as --sessions says: $count"
        done
        return
    fi
    find_input "$@"
    name=$input
    [ "$input" != /dev/stdin ] || name="standard input"
    if [ -p /dev/stdout ]; then
        return
    elif [ -p "$input" ]; then
        asleep="waits for the end of $name"
    elif [ -c "$input" ] && [ -t 0 ] 2>/dev/null <"$input"; then
        asleep="waits for the end of $name, which is a terminal: Ctrl-D ends it"
    fi
}

# Tells whoever looks on, if this process is still there in five seconds, why: what it waits for, or that it is the program
# that the first word says, if it works: the unproved one is slow.
tell_later() {
    [ -t 2 ] || return 0
    working=
    [ "$1" = proved ] || working="the unproved program takes some hundred times as long"
    shift
    find_wait "$@"
    [ "${1-}" != serve ] || working=$asleep
    [ -n "$working$asleep" ] || return 0
    job=$$
    (
        sleep 5
        # R where it runs, S where it waits, nothing where it has ended
        case $(ps -o stat= -p "$job" 2>/dev/null) in
            R*) [ -z "$working" ] || tell "$working" ;;
            S*) [ -z "$asleep" ] || tell "$asleep" ;;
        esac
    ) </dev/null >/dev/null &
}
