# shellcheck shell=sh disable=SC2034,SC2154
# What every command uses: messages, temporary files, interrupts, names of files.

# Tells a line. Standard error as the caller gave it is 3: what the shell itself has to say at an interrupt is not told.
say() {
    printf 'fantzori: %s\n' "$1" >&3
}

# Tells how far a command is, but not where it is to be quiet.
progress() {
    [ -n "$quiet" ] || say "$1"
}

# Ends with a message: bad arguments, or a file that cannot be read or written.
die() {
    say "$1"
    exit 2
}

# Ends where a program is not on this machine.
need() {
    command -v "$1" >/dev/null 2>&1 || die "$1 is not on this machine: $2"
}

# Temporary files: the folder temporary with scratch in it, which nobody else enters, and a file that is renamed when it is whole.
temporary='' scratch='' beside=''
# The process group of what runs apart, and the process that reads a file.
group='' reader=''

# Ends what runs apart and removes the temporary files; it may be called twice, as an interrupt may come while it runs.
clean() {
    trap '' HUP INT QUIT PIPE TERM
    if [ -n "$group" ]; then
        # again until it ends: a process that has just been forked can lose a signal
        while kill -s TERM -- "-$group" "$group"; do sleep 0.1; done 2>/dev/null &
        set -- $!
        wait "$group" 2>/dev/null
        kill -s KILL -- "$1" "-$group" 2>/dev/null
    fi
    [ -z "$reader" ] || kill "$reader" 2>/dev/null
    [ -z "$beside" ] || rm -f -- "$beside"
    # what was just ended may still have written there
    [ -z "$temporary" ] || rm -rf -- "$temporary" 2>/dev/null || { sleep 0.2 && rm -rf -- "$temporary"; }
}

# Ends after a signal, with a line and the signal's status.
interrupted() {
    clean
    say "interrupted by $1"
    exit "$2"
}

# Begins a command that has temporary files. Their name is that of this process, so that the next command knows whether it is gone.
start() {
    trap clean EXIT
    trap 'interrupted HUP 129' HUP
    trap 'interrupted INT 130' INT
    trap 'interrupted QUIT 131' QUIT
    trap 'clean; exit 141' PIPE
    trap 'interrupted TERM 143' TERM
    exec 2>/dev/null
    absolute "${TMPDIR:-/tmp}"
    find_machine
    began_at $$
    sweep "$path"
    # named before it is made, so that an interrupt finds it
    temporary=$path/fantzori-$machine-$$-$began scratch=$temporary/scratch
    { mkdir -m 700 "$temporary" && mkdir -m 700 "$scratch"; } || { temporary='' && die "no temporary folder can be made in $path"; }
}

# Sets machine, a name for the processes that this one can see: those of one boot of one machine, or of a container on it.
find_machine() {
    read -r machine </proc/sys/kernel/random/boot_id
    machine=${machine%%-*}-$(readlink /proc/self/ns/pid | tr -c -d 0-9)
}

# Sets began, when a process began, in ticks since the boot; nothing where there is no such process, or it has ended.
began_at() {
    began=''
    { read -r began <"/proc/$1/stat"; } 2>/dev/null || return 0
    # the second field is a name in brackets, which may have spaces
    # shellcheck disable=SC2086
    set -- ${began##*) }
    case $1 in Z | X) began='' ;; *) began=${20} ;; esac
}

# Removes what this user's commands left in a folder that were killed, with the files that they had beside others.
sweep() {
    for old in "$1/fantzori-$machine-"*; do
        if [ ! -d "$old" ] || [ -h "$old" ] || [ ! -O "$old" ]; then continue; fi
        process=${old%-*}
        began_at "${process##*-}"
        [ "$began" != "${old##*-}" ] || continue
        left=$(cat "$old/beside" 2>/dev/null && printf x)
        left=${left%x}
        case $left in */".${old##*/}") rm -f -- "$left" ;; esac
        rm -rf -- "$old"
    done
    began_at $$
}

# Sets beside, the name of a file in a folder; it is noted, so that it can be removed where this process is killed.
name_beside() {
    beside=${1%/}/.${temporary##*/}
    printf '%s' "$beside" >"$temporary/beside" || { beside='' && die "there is no room in $temporary"; }
}

# Has rt put its temporary files beside scratch. It runs programs there as nobody, who must be able to enter.
lend_temporary() {
    chmod 711 "$temporary"
    export TMPDIR="$temporary"
}

# Prints what comes in. Whoever reads may stop reading; else ends with a message, as nothing can be printed.
print() {
    told=${scratch:+$scratch/told}
    LC_ALL=C cat 2>"${told:-/dev/null}"
    set -- $? "${1:-standard output cannot be written}"
    if [ "$1" -eq 141 ] || grep -q 'Broken pipe' "${told:-/dev/null}"; then exit 141; fi
    [ "$1" -eq 0 ] || die "$2"
}

# Runs a command in a process group of its own and waits for it. An interrupt ends the wait at once, and then the whole group.
apart() {
    begin_apart "$@"
    wait "$group"
    set -- $?
    group=''
    return "$1"
}

# Begins a command in a process group of its own, with a guard that ends the group where this process is killed. The guard has the
# lock until then, and the command has not.
begin_apart() {
    # shellcheck disable=SC2016
    setsid sh -c '
        parent=$1
        shift
        {
            # whoever loses its parent gets another
            while read -r stat <"/proc/$$/stat"; do
                case ${stat##*)} in " "?" $parent "*) sleep 0.2 9<&- ;; *) break ;; esac
            done
            trap "" TERM
            kill -s TERM 0
            sleep 1
            kill -s KILL 0
        } </dev/null >/dev/null 2>&1 3>&- 4<&- &
        guard=$!
        "$@" 3>&- 4<&- 9<&-
        status=$?
        kill -s KILL "$guard"
        exit "$status"' sh $$ "$@" &
    group=$!
}

# A name that the caller gave, as an absolute path: it may then begin with a dash.
absolute() {
    case $1 in
    /*) path=$1 ;;
    *) path=$caller/$1 ;;
    esac
}

# The SHA-256 of what comes in.
sha256() {
    sha256sum | cut -c 1-64
}
