#!/bin/sh
# Beside fc-solve (Debian's package freecell-solver-bin): tests/fc-solve.sh [LAST], hands 1 to LAST, 100 if it is not given.
#   every hand that make-microsoft-freecell-board prints, with T and with 10 for ten, is read as the hand of its number;
#   every hand that `corbelnib deal` prints is read by fc-solve, which shows the same board where it solves it;
#   every solution of fc-solve's, in five forms, is legal and ends won by `corbelnib play --fc-solve`, and so is its solution of the board that
#   `corbelnib play --board` prints after ten moves of it;
#   every line that `corbelnib judge` wins by within 20,000 boards is legal and ends won by tests/legal.py.
set -u
here=$(cd "$(dirname "$0")" && pwd)
command=${COMMAND:-$here/../target/command/corbelnib}
last=${1:-100}
for program in make-microsoft-freecell-board fc-solve python3; do
    if ! command -v "$program" > /dev/null; then
        echo "$program is not here" >&2
        exit 2
    fi
done
export FREECELL_SOLVER_QUIET=1
scratch=$(mktemp -d)
trap 'rm -rf "$scratch"' EXIT
cd "$scratch" || exit 1

failed=0
wrong() { # HAND WHAT
    echo "hand $1: $2"
    failed=$((failed + 1))
}

columns() { # what `play` or fc-solve prints of a board
    sed -n 's/^: //p' | head -n 8
}

read_here() { # HAND
    make-microsoft-freecell-board -t "$1" | cmp -s - hand || wrong "$1" "make-microsoft-freecell-board deals another one"
    make-microsoft-freecell-board -t "$1" | "$command" play - '' | columns | cmp -s - hand || wrong "$1" "its text is read otherwise"
    make-microsoft-freecell-board "$1" | "$command" play - '' | columns | cmp -s - hand || wrong "$1" "its text with 10 is read otherwise"
}

read_there() { # HAND
    fc-solve -p -t -sel -mi 200000 hand > solved 2>&1
    case $(tail -n 3 solved) in
    *solveable*)
        there=$((there + 1))
        columns < solved | cmp -s - hand || wrong "$1" "fc-solve shows another board"
        ;;
    *'Iterations count exceeded'*) ;;
    *) wrong "$1" "fc-solve: $(tail -n 1 solved)" ;;
    esac
}

won_by() { # HAND BOARD WHAT, with the solution on standard input
    told=$("$command" play "$2" --fc-solve) || wrong "$1" "$3: $told"
    case $told in
    *'all legal; the hand is won.'*) ;;
    *) wrong "$1" "$3: not won" ;;
    esac
}

solutions() { # HAND
    fc-solve -m -snx -l gi hand > letters
    case $(cat letters) in
    *'game is solveable'*) ;;
    *) return ;;
    esac
    solved=$((solved + 1))
    won_by "$1" "$1" '-m -snx' < letters
    for options in '-p -t -sam' -m '-p -t' ''; do
        # shellcheck disable=SC2086 # options are words
        fc-solve $options -l gi hand > solution
        won_by "$1" "$1" "with $options" < solution
    done
    sed -n 3p letters | "$command" play "$1" --fc-solve --board > middle 2> /dev/null || wrong "$1" "its first moves are not legal"
    fc-solve -m -snx -l gi middle > letters
    case $(cat letters) in
    *'game is solveable'*) won_by "$1" middle 'from the middle' < letters ;;
    esac
}

judged() { # HAND
    make-microsoft-freecell-board -t "$1" | "$command" judge - --budget 20000 --memory 64M --json > answer
    case $? in
    0)
        won=$((won + 1))
        moves=$(python3 "$here/legal.py" hand < answer) || wrong "$1" "$moves"
        ;;
    1) ;;
    *) wrong "$1" "judge: status $?" ;;
    esac
}

there=0
won=0
solved=0
hand=1
while [ "$hand" -le "$last" ]; do
    # shellcheck disable=SC2094 # hand is a file here, $hand a number
    "$command" deal "$hand" > hand || wrong "$hand" "not dealt"
    read_here "$hand"
    read_there "$hand"
    solutions "$hand"
    judged "$hand"
    hand=$((hand + 1))
done
echo "hands 1 to $last: read both ways; $solved solutions of fc-solve in five forms and from the middle played; fc-solve solved $there, corbelnib won $won within 20,000 boards, each line legal; $failed failed"
[ "$failed" -eq 0 ]
