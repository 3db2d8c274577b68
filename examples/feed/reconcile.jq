# From what the wiki says now of these entities to reconciliations for the next run:
#   jq -c --arg time 2024-05-01T11:00:00Z --argjson deleted '{"Q1":4}' -f reconcile.jq < now.json
# now.json is the answer of https://www.wikidata.org/w/api.php?action=query&prop=info&format=json&titles=Q1|Property:P31|Lexeme:L1
# time: when the wiki was asked. deleted: the last known revision of each entity that is gone, since the answer has none.
.query.pages[]
| (.title | sub("^(Property|Lexeme):"; "")) as $entity
| if has("missing")
  then {kind: "reconcile", mode: "deleted", entity: $entity, rev: ($deleted[$entity] // 1), time: $time}
  else {kind: "reconcile", mode: "kept", entity: $entity, rev: .lastrevid, time: $time}
  end
