#!/bin/sh
# Stands in for `rt` in the rows of the launcher: it keeps its words, and does what the file `plan` says.
crate=${PWD##*/}
echo "$$ $crate $*" >>"$FAKE/calls"
turn=$(sed -n '/ cube_shape /p' "$FAKE/calls" | sed -n '$=')
plan=$(sed -n "${turn}p" "$FAKE/plan")
[ -n "$plan" ] || plan=$(sed -n '$p' "$FAKE/plan")
echo 'so far: 20 of 26 functions checked' >&2
if [ "$crate $*" = 'cube_shape lib' ]; then
    case $plan in
        *waits*) while [ -d "$FAKE" ] && [ ! -e "$FAKE/go" ]; do sleep 0.05; done ;;
    esac
    echo 'the library is built'
    exit 0
fi
[ "$crate $*" = 'jobs_cli run -- --help' ] || exit 9
case $plan in
    *fails*) echo 'src/main.rt:1:1: error: a goal is open' >&2; exit 1 ;;
    *nothing*) exit 0 ;;
esac
mkdir -p out
printf '#!/bin/sh\necho "args: $*"; cat; echo note >&2; exit ${STATUS:-0}\n' >out/jobs_cli
case $plan in
    *unusable*) printf '#!/no/such/interpreter\n' >out/jobs_cli ;;
esac
chmod +x out/jobs_cli
echo 'this is the output of the help'
