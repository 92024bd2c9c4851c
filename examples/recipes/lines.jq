# What the recipes share: the parts of a line of `cvr currents` or `cvr tally`, which `jq -R` reads as a text; and a place in a report.

# Each part as it is spelled: a JSON string, `null`, a number, or a Type. A name may have spaces and quotes in it.
def spelled: [scan("\"(?:[^\"\\\\]|\\\\.)*\"|[^ ]+")];

# Each part as a value: texts, numbers, null.
def parts: spelled | map(if test("^[\"0-9]|^null$") then fromjson else . end);

# Of the parts of a line of `tally`, how many come before its selections.
def before: 3 + (.[3:] | map(type == "number") | index(false) // length);

# Of a line of `tally` contest, unit and batch, and the numbers after them.
def numbers: parts | .[:before];

# Of a line of `tally`, for each selection: contest, unit, batch, selection, votes.
def votes: parts | .[:3] as $row | .[before:] | range(0; length; 2) as $i | $row + .[$i:$i + 2];

# Of a report what stands at a path, as the line of a fault has it between two double quotes: null where nothing does.
def at($path): reduce ($path | split("/")[1:][] | gsub("~1"; "/") | gsub("~0"; "~")) as $step (.; .[if type == "array" then $step | tonumber else $step end]);
