#!/usr/bin/env bash
# Judges a job file, prints its report, and says by the exit status what came of it. The report program ends with 0 whatever it says, so
# the report is looked at: it is whole only when it has the lines that the job asks for, and nothing else.
#
#   examples/judge.sh my.job
#
#   0   every class that the job wants is complete
#   1   some fault is not caught
#   2   the job is refused
#   3   no whole report came: the job could not be read, or the report not be written
#
# NUF_REPORT is a program to run instead of crates/report/out/report of this repository, as it stands on this machine.
set -uo pipefail

here=$(cd "$(dirname "${BASH_SOURCE[0]}")" && pwd)
. "$here/start.sh"
program=("${start[@]}" "$here/../crates/report/out/report")
[ -z "${NUF_REPORT:-}" ] || program=("$NUF_REPORT")

no_report() {
    echo "judge.sh: $*" >&2
    exit 3
}

[ $# = 1 ] || no_report "usage: examples/judge.sh JOB"
[ -r "$1" ] || no_report "$1 can't be read"
[ -x "${program[-1]}" ] || no_report "${program[-1]} is not there; (cd crates/report && rt run <stdin) makes it"

# the job is looked at twice, so what can be read only once is copied first
said=$(mktemp) job=$(mktemp)
trap 'rm -f "$said" "$job"' EXIT
cat "$1" >"$job" || no_report "$1 can't be read"
# the full stop keeps the last LF, which a substitution would drop
text=$("${program[@]}" <"$job" 2>"$said" && echo .) || no_report "the program failed"
text=${text%.}
printf %s "$text"
if [ -s "$said" ]; then
    cat "$said" >&2
    exit 3
fi

# one line of a refused job, or the lines that the classes wanted have; these stand in byte 4 of the job
number='(0|[1-9][0-9]*)' lf=$'\n'
refused="^E $number $number$lf\$"
if [[ $text =~ $refused ]]; then exit 2; fi
lines=("S $number $number (ok|$number $number $number)" "M $number $number (ok|$number)"
    "C $number $number (ok|$number $number)" "X $number $number (ok|$number $number)")
wanted=$(od -An -tu1 -j4 -N1 "$job")
whole="^J $number $number $number$lf"
complete=$whole
for class in 0 1 2 3; do
    if ((wanted >> class & 1)); then
        whole+="${lines[class]}$lf"
        complete+="[SMCX] $number $number ok$lf"
    fi
done
[[ $text =~ $whole$ ]] || no_report "the report is not whole"
[[ $text =~ $complete$ ]]
