#!/usr/bin/env bash
# A wrong `desk` for the self-tests: the right one, $PROGRAM, with the rules of its book or its answers changed by the fault $FAULT.
set -uo pipefail
[ -d wrong ] || mkdir wrong
[ ! -e wrong/tariff.cnf ] || rm wrong/tariff.cnf
facts="0 0"
if [ -e tariff.cnf ]; then
    facts=$(LC_ALL=C awk -v fault="$FAULT" -v out=wrong/tariff.cnf -f "${0%/*}/wrong_reader.awk" tariff.cnf) || cp tariff.cnf wrong
fi
(cd wrong && "$PROGRAM") | awk -v fault="$FAULT" -v facts="$facts" '
    BEGIN { split(facts, fact); met = fact[1] + 0; twice = fact[2] + 0 }
    { at = ($1 == "open") ? 3 : 4; forced = ($(at - 1) == "forced"); rule = ($(at - 1) == "rule"); n = $at + 0 }
    fault == "drops the last forced literal" && forced && n > 0 { sub(/ [^ ]*$/, ""); sub(/[0-9]+:/, (n - 1) ":") }
    fault == "turns the last forced literal" && forced && n > 0 { $NF = -$NF }
    fault == "doubles the last forced literal" && forced && n > 0 { sub(/[0-9]+:/, (n + 1) ":"); $0 = $0 " " $NF }
    fault == "swaps forced literals" && forced && n > 1 { last = $NF; $NF = $(at + 1); $(at + 1) = last }
    fault == "misses contradictions" && rule { $(at - 1) = "forced"; $at = "0:" }
    fault == "contradicts each time" && forced { $0 = ($1 == "open") ? "open rule 1" : "choose " $2 " rule 1" }
    fault == "names the next rule" && rule { $at = n + 1 }
    fault == "names a rule that is always met" && rule && met > 0 { $at = met }
    fault == "says 14 for 15" && $0 == "refused 15" { $2 = 14 }
    fault == "says 13 for 18" && $0 == "refused 18" { $2 = 13 }
    fault == "takes back too much" && $0 == "refused 16" { $0 = "back 1" }
    fault == "keeps choices" && $1 == "back" { $0 = "refused 16" }
    fault == "counts a choice too many" && $1 == "end" { $3++ }
    fault == "counts a take-back too many" && $1 == "end" { $5++ }
    fault == "counts no checks" && $1 == "end" { $7 = 0 }
    fault == "counts a check too few" && $1 == "end" { $7-- }
    fault == "counts a check too many" && $1 == "end" { $7++ }
    fault == "checks above the ceiling" && $1 == "end" { $7 = "4000000000" }
    fault == "other refusals" && $1 == "refused" { $2 = $2 % 9 + 1 }
    fault == "refuses a feature twice by 7" && twice && $1 != "refused" { print "refused 7"; exit }
    fault == "a blank at the end of lines" { $0 = $0 " " }
    fault == "a leading zero" && rule { $at = "0" $at }
    fault == "an answer missing" && NR == 2 { next }
    fault == "no end line" && $1 == "end" { next }
    { print }'
[ "$FAULT" != "exit code 3" ] || exit 3
