# The revisions that a run may ask for, each with the address of its page:
#   jq -r -f urls.jq < events.jsonl | while read -r revision url; do
#     curl -sSf --compressed --retry 5 -A "mirror/1.0 (jane@example.org)" -o "pages/$revision.part" "$url" &&
#       mv "pages/$revision.part" "pages/$revision.json"
#   done
# The wiki demands a user agent with an address of yours. A download that breaks off leaves a .part file at most.
select(.kind and .kind != "delete" and .mode != "deleted")
| "\(.rev) https://www.wikidata.org/wiki/Special:EntityData/\(.entity).json?revision=\(.rev)"
