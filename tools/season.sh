#!/bin/sh
# The season's figures over many deals, on all cores of this machine or of several, in shards that are added to one sheet:
#   tools/season.sh FOLDER [FIRST LAST [BUDGET [NODES [partial]]]]
# Without them: deals 1 to 32,000, budget 100,000, 2,500,000 nodes (95 MB a core), no partial lists. SHARD deals, 100 unless it is set,
# make a shard. FOLDER gets `settings`, a sheet for each shard in `shards`, `joblog` (when, where and how long each was judged) and at the
# end `season.sheet`, which is shown.
# Killed in the middle, in whatever way, it loses at most the shards that were being judged: the same command again goes on. The files
# are what it goes by: a shard's file takes its name when it is whole (`corbelnib season run`), a shard without one is judged, and so is one
# that failed or whose file was deleted. Other settings want another FOLDER.
# Needs make, a C compiler and GNU parallel (Debian's package parallel), which takes more options from PARALLEL, as -j4 or '--nice 10'.
# SSHLOGINS names machines, as ':,one,8/two' (parallel's --sshlogin; the colon is this one). Each needs the command at the same place (its
# path is printed), rsync, and parallel unless the number of its cores is told; sheets come back here, and nothing is left there.
# CORBELNIB_ARCHIVE, if set, is a folder with a libcorbelnib.a that is taken as it is (Makefile).
set -eu
root=$(cd "$(dirname "$0")/.." && pwd)

no() { # STATUS WHY..
    status=$1
    shift
    printf 'season.sh: %s\n' "$@" >&2
    exit "$status"
}

# Runs a command in a group of its own and waits. A TERM, HUP or Ctrl-C is handed on to the whole group, and again a second later: parallel's first one
# starts nothing more, its second ends what runs. (perl is there where parallel is.)
along() { # COMMAND..
    perl -e 'setpgrp; exec @ARGV or exit 127' "$@" &
    group=$!
    trap 'handed_on 129' HUP
    trap 'handed_on 130' INT
    trap 'handed_on 143' TERM
    status=0
    wait "$group" || status=$?
    trap - HUP INT TERM
    return "$status"
}
handed_on() { # STATUS
    trap '' HUP INT TERM
    kill -s TERM -- "-$group" 2> /dev/null || true
    sleep 1
    kill -s TERM -- "-$group" 2> /dev/null || true
    wait "$group" || true
    no "$1" 'stopped: the same command again goes on'
}

case $# in
1 | 3 | 4 | 5 | 6) ;;
*) no 64 "usage: $0 FOLDER [FIRST LAST [BUDGET [NODES [partial]]]] (its first lines tell more)" ;;
esac
given=$1 first=${2:-1} last=${3:-32000} budget=${4:-100000} nodes=${5:-2500000} shard=${SHARD:-100}
for number in "$first" "$last" "$budget" "$nodes" "$shard"; do
    case $number in
    '' | 0?* | *[!0-9]* | ??????????*) no 64 "'$number' is not a number" ;;
    esac
done
case ${6:-no} in
no) partial=no option='' kind=season-$budget-$nodes ;;
partial) partial=yes option=--partial kind=season-$budget-$nodes-partial ;;
*) no 64 "'$6' is not understood: partial, or nothing" ;;
esac
[ "$shard" -ge 1 ] || no 64 'SHARD is at least 1'
[ "$first" -le "$last" ] || no 64 "from $first to $last there is no deal"
case $(parallel --version 2> /dev/null || true) in
'GNU parallel'*) ;;
*) no 69 "GNU parallel is needed (Debian's package parallel)" ;;
esac

# The command, built unless it is there.
if [ -n "${CORBELNIB_ARCHIVE:-}" ]; then
    archive=$(cd "$CORBELNIB_ARCHIVE" && pwd)
    along make -s -C "$root" CORBELNIB_ARCHIVE="$archive" >&2
else
    along make -s -C "$root" >&2
fi
command=$root/target/command/corbelnib

# Every refusal before anything is begun: the run turned round has no deal (a single one is judged).
"$command" season run "$last" "$first" --budget "$budget" --nodes "$nodes" --quiet > /dev/null

mkdir -p "$given/shards" || no 73 "$given cannot be made"
cd "$given"
wanted="deals $first to $last, budget $budget, nodes $nodes, partial $partial, shard $shard"
if [ ! -s settings ]; then
    echo "$wanted" > settings.new
    mv settings.new settings
elif [ "$(cat settings)" != "$wanted" ]; then
    no 2 "$given was begun with other settings, and wants these or another folder:" "begun with $(cat settings)" "asked for  $wanted"
fi
cd shards

# The shards in rising order, as 00001-00100; those that have a whole file (a sheet has 5,728 bytes); and those that have none. On another
# machine a file is made in the login folder, which is why its name has the settings.
shards() {
    from=$first
    while [ "$from" -le "$last" ]; do
        to=$((from + shard - 1))
        [ "$to" -le "$last" ] || to=$last
        printf '%05d-%05d\n' "$from" "$to"
        from=$((to + 1))
    done
}
whole() { find . -type f -name "$kind-*.sheet" -size 5728c | sed "s|^\./$kind-||; s|\.sheet\$||"; }
missing() { { whole; whole; shards; } | sort | uniq -u; }
count() { printf '%s' "$1" | grep -c . || true; }

all=$(shards)
left=$(missing)
echo "season.sh: $(count "$left") of $(count "$all") shards are to be judged, by $command" >&2
if [ -n "$left" ]; then
    printf '%s\n' "$left" > ../left
    set -- --arg-file ../left --colsep - --joblog +../joblog
    [ -z "${SSHLOGINS:-}" ] || set -- "$@" --sshlogin "$SSHLOGINS" --return "$kind-{1}-{2}.sheet" --cleanup
    # how far it has come: a bar on a terminal, elsewhere a line for each shard that is done
    if [ -t 2 ]; then set -- "$@" --bar; else set -- "$@" -v; fi
    # shellcheck disable=SC2086 # an option or none
    along parallel "$@" -q "$command" season run '{1}' '{2}' --budget "$budget" --nodes "$nodes" $option --quiet -o "$kind-{1}-{2}.sheet" >&2 || true
    rm ../left
    left=$(missing)
    [ -z "$left" ] ||
        no 1 "$(count "$left") of $(count "$all") shards are not done, $(echo "$left" | head -n 1) first: the same command again goes on"
fi

covers=$first-$last
[ "$first" -lt "$last" ] || covers=$first
# shellcheck disable=SC2046,SC2086,SC2059 # names of files of ours
"$command" season add -o ../season.new $(printf "$kind-%s.sheet\n" $all) ||
    no 1 'a shard that is refused can be deleted: the same command again judges it anew'
cd ..
if ! "$command" season show season.new | grep -q "^  deals .*: $covers\$"; then
    rm season.new
    no 1 "the sum covers other deals than $covers: a file in $given/shards has others than its name says"
fi
mv season.new season.sheet
"$command" season show season.sheet
