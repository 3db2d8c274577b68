# Routes an event file: prints each line once for each part that it goes to, behind the part's number and a tab. Parts are counted from 0.
#   jq -R -r --argjson parts 3 -f route.jq < events.jsonl | awk -F '\t' '{ print substr($0, length($1) + 2) > ("part-" $1 ".jsonl") }'
# An event goes to the part that its entity's number gives modulo the number of parts. Every other line goes to every part: a watermark, a
# question, a version of the mapping, and what is no event. A match is an error, and jq ends with status 5. A line of UTF-8 stays as it is. A line that isn't UTF-8 is changed by jq, so
# check the file first: iconv -f UTF-8 -t UTF-8 events.jsonl >/dev/null
def part_of_event:
  if type == "object" and .kind and (.entity | type == "string" and test("^[PQL][0-9]{1,10}$"))
  then .entity[1:] | tonumber % $parts
  else null
  end;
. as $line
| ([try fromjson catch null] | .[0]) as $delivery
| if ($delivery | type == "object" and has("match")) then error("a match needs one process: its triples may lie in different parts") else . end
| (try ($delivery | part_of_event) catch null) as $part
| if $part then $part else range($parts) end
| "\(.)\t" + $line
