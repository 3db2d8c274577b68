# Makes an event file of one that was written by hand or on another system:
#   jq -R -c -f clean.jq < untidy.txt
# A byte order mark, carriage returns, spaces round a line and empty lines go; a time that ends with +00:00 ends with Z.
# A line that is left out, since it is empty or no JSON, is named on standard error (by one less where it is the last one and has no line
# feed). All else that wdq would refuse stays, so that wdq names it.
def left_out($line; reason): "line \(input_line_number) is left out: \(reason)\($line[0:60])" | debug | empty;
def with_z(key): if (.[key] | type) == "string" then .[key] |= sub("\\+00:?00$"; "Z") else . end;
(ltrimstr("\ufeff") | gsub("^[ \t\r]+|[ \t\r]+$"; "")) as $line
| if $line == "" then left_out($line; "empty") else (try ($line | [fromjson]) catch left_out($line; "no JSON: ")) end
| .[0]
| if type == "object" then with_z("time") | with_z("watermark") else . end
