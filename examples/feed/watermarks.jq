# Puts watermarks between event lines, a fixed delay behind the greatest time so far:
#   jq -c -n --argjson delay 10 --argjson every 5 -f watermarks.jq < events.jsonl
# delay: how many seconds late an event may come and still be applied; every: at least so many seconds from one watermark to the next.
foreach inputs as $line ({seen: null, mark: null};
    .seen = ([.seen, ($line.time[0:19] + "Z" | fromdateiso8601)] | max)
    | .line = $line
    | .is_due = (.mark == null or .seen - $delay >= .mark + $every)
    | if .is_due then .mark = .seen - $delay else . end;
    .line, (select(.is_due) | {watermark: (.mark | todateiso8601)}))
