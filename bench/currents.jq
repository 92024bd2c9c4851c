# jq -rn -f currents.jq FILE..
# Prints what `cvr currents` prints, without checking the files: of each record the snapshot of the latest Type, then of
# the latest moment among its annotations (none is least), then of the greatest compact text with members by name.
def rank: {original: 0, interpreted: 1, modified: 2}[.];
def seconds: (.[1:3] | tonumber) * 3600 + (.[4:6] | tonumber) * 60;
def offset: if . == "Z" then 0 elif .[0:1] == "-" then -seconds else seconds end;
def instant:
  capture("^(?<local>.{19})(?<zone>Z|[+-][0-9]{2}:[0-9]{2})$")
  | (.local + "Z" | fromdateiso8601) - (.zone | offset);
def by_name:
  if type == "object" then to_entries | sort_by(.key) | map(.value |= by_name) | from_entries
  elif type == "array" then map(by_name) else . end;
def body: by_name | tojson;
reduce (inputs | .CVR[]?) as $cvr ({};
  ($cvr.CreatingDeviceId + "\u0000" + $cvr.UniqueId) as $name
  | reduce $cvr.CVRSnapshot[] as $new (.;
      [($new.Type | rank), ([$new.Annotation[]?.TimeStamp // empty | instant] | max)] as $order
      | .[$name] as $old
      | if $old == null or $old.order < $order
          or ($old.order == $order and ($old.snapshot | body) < ($new | body))
        then .[$name] = {device: $cvr.CreatingDeviceId, unique: $cvr.UniqueId, order: $order, snapshot: $new}
        else . end))
| [.[]] | sort_by(.device, .unique)[]
| "\(.device | tojson) \(.unique | tojson) \(.snapshot["@id"] | tojson) \(.snapshot.Type)"
