# From the public stream of page changes (server-sent events, mediawiki.page_change.v1) to event lines:
#   jq -R -c -f events.jq < stream.txt
# Items, properties and lexemes of Wikidata alone, and no canary events, which only test the stream. A move or a change of visibility leaves the
# newest revision as it is, so it gives no line.
# wdq takes up to six digits of a second; further ones are cut off.
select(startswith("data: ")) | .[6:] | fromjson?
| select(.meta.domain != "canary" and .wiki_id == "wikidatawiki" and (.page.namespace_id | IN(0, 120, 146)))
| {create: "edit", edit: "edit", delete: "delete", undelete: "undelete"}[.page_change_kind] as $kind
| select($kind)
| {
    kind: $kind,
    entity: (.page.page_title | sub("^(Property|Lexeme):"; "")),
    rev: .revision.rev_id,
    time: (.dt | sub("(?<kept>\\.[0-9]{6})[0-9]+Z$"; "\(.kept)Z"))
  }
