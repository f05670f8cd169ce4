# shellcheck shell=bash
# What tools/try-package and tools/try-machines have in common: counting, and machines of bare Debian, each under a
# systemd of its own. `room` is a folder that is deleted at the end, `bare` that of a bare Debian.

. "$root/tools/counting.sh"
declare -A nspawn=() leader=()

fail() {
    echo "${0##*/}: $1" >&2
    exit 1
}

# is WHAT WANTED GOT
is() {
    count "$1: $3 for $2" [ "$3" = "$2" ]
}

make_bare() {
    [ -d "$bare/usr" ] && [ ! -d "$bare/debootstrap" ] && return
    echo "${0##*/}: a bare Debian is made in $bare" >&2
    debootstrap --variant=minbase --include=systemd,systemd-sysv,dbus bookworm "$bare" >"$room/log" 2>&1 ||
        fail "debootstrap failed: $(tail -n 1 "$room/log")"
}

# A machine's folder, over a tree that stays as it is: layer TREE MACHINE
layer() {
    mkdir "$room/$2" "$room/$2.own" "$room/$2.work" &&
        mount -t overlay overlay -o "lowerdir=$1,upperdir=$room/$2.own,workdir=$room/$2.work" "$room/$2" ||
        fail "no overlay for $2"
    ln -sf "/usr/share/zoneinfo/$(zone_of_noon)" "$room/$2/etc/localtime"
}

# A zone in which it is past eleven on this day of UTC: no midnight comes to a machine but one that is tried.
zone_of_noon() { printf 'Etc/GMT%+d\n' $(($(date -u +%-H) - 11)); }

# A command of a machine's administrator: on MACHINE COMMAND
on() {
    nsenter -t "${leader[$1]}" -a -- env -i PATH=/usr/sbin:/usr/bin:/sbin:/bin HOME=/root \
        DEBIAN_FRONTEND=noninteractive bash -c "${*:2}" 2>>"$room/log"
}

# Begins the machine whose files are in the folder of its name, and waits until all that begins with it has begun. Each
# has a group of processes of its own: begin MACHINE NSPAWN-WORD..
begin() {
    local name=$1 state tries part
    # What a machine that was lost left there would be in the way.
    rm -rf --one-file-system "/run/systemd/nspawn/propagate/try-$$-$name"
    (
        for part in /sys/fs/cgroup/unified /sys/fs/cgroup/systemd /sys/fs/cgroup; do
            if [ -e "$part/cgroup.procs" ]; then
                mkdir -p "$part/try.$$.$name" && echo "$BASHPID" >"$part/try.$$.$name/cgroup.procs"
            fi
        done 2>/dev/null
        SYSTEMD_NSPAWN_UNIFIED_HIERARCHY=1 exec systemd-nspawn --register=no --keep-unit -q -D "$room/$name" \
            --machine="try-$$-$name" --hostname="$name" --timezone=off --system-call-filter=bpf \
            --capability=CAP_BPF,CAP_PERFMON --boot "${@:2}" </dev/null >"$room/$name.console" 2>&1
    ) &
    nspawn[$name]=$!
    for ((tries = 0; tries < 600; tries++)); do
        sleep 0.2
        leader[$name]=$(pgrep -P "${nspawn[$name]}" | head -n 1)
        state=$([ -z "${leader[$name]}" ] || on "$name" systemctl is-system-running)
        case $state in running | degraded) return ;; esac
    done
    fail "the machine $name did not begin: $(tail -n 1 "$room/$name.console")"
}

# Ends a machine as its administrator does.
halt() {
    [ -n "${nspawn[$1]-}" ] || return
    on "$1" systemctl poweroff
    wait "${nspawn[$1]}"
    nspawn[$1]=''
}

# Ends a machine as a failing power supply does.
lose() {
    [ -n "${nspawn[$1]-}" ] || return
    kill -KILL "${leader[$1]}" "${nspawn[$1]}"
    wait "${nspawn[$1]}" 2>/dev/null
    nspawn[$1]=''
}

clean() {
    local name
    for name in "${!nspawn[@]}"; do
        [ -z "${nspawn[$name]}" ] || { kill "${nspawn[$name]}" && wait "${nspawn[$name]}"; } 2>/dev/null
        rmdir /sys/fs/cgroup/{unified,systemd}/"try.$$.$name" 2>/dev/null
        umount -l "$room/$name" 2>/dev/null
    done
    rm -rf --one-file-system -- "$room"
}
