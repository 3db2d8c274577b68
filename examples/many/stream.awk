# A stream to try many parts with: prints an event file, and writes its pages into a folder.
#   awk -v size=6070 -v pages=FOLDER -f stream.awk > events.jsonl
# Like a drill (docs/USAGE.md) of this size: each item is edited twice, out of order and repeated; each fifth is deleted, each tenth is
# followed by a watermark and a late edit. Besides, the later page of one item in a hundred is missing, every 500 items three questions are
# asked, and half-way version 2 of the mapping is put in force. Items share the nodes of seven amounts and three references.

# The text of a time so many seconds after 1970-01-01T00:00:00Z, in the first 31 days.
function time_at(second) {
  return sprintf("1970-01-%02dT%02d:%02d:%02dZ", int(second / 86400) + 1, int(second / 3600) % 24, int(second / 60) % 60, second % 60)
}

function event(kind, item, revision, second) {
  printf "{\"kind\":\"%s\",\"entity\":\"Q%d\",\"rev\":%d,\"time\":\"%s\"}\n", kind, item, revision, time_at(second)
}

function page(item, revision, claims) {
  file = pages "/" revision ".json"
  printf "{\"type\":\"item\",\"id\":\"Q%d\",\"labels\":{\"en\":{\"language\":\"en\",\"value\":\"item %d\"}}%s}", item, item, claims > file
  close(file)
}

# One statement: an amount, with a reference.
function claims(item) {
  return sprintf(",\"claims\":{\"P1\":[{\"mainsnak\":{\"snaktype\":\"value\",\"property\":\"P1\",\"datavalue\":{\"type\":\"quantity\",\"value\":{\"amount\":\"+%d\",\"unit\":\"1\"}}},\"id\":\"Q%d$1\",\"rank\":\"normal\",\"references\":[{\"hash\":\"%d\",\"snaks\":{\"P2\":[{\"snaktype\":\"value\",\"property\":\"P2\",\"datavalue\":{\"type\":\"string\",\"value\":\"source %d\"}}]}}]}]}", item % 7, item, item % 3, item % 3)
}

function question(subject, predicate) {
  printf "{\"ask\":[\"%s\",\"%s\",\"?\"]}\n", subject, predicate
}

BEGIN {
  for (item = 1; item <= size; item++) {
    page(item, 2 * item - 1, "")
    if (item % 100 != 1) page(item, 2 * item, claims(item))
    event("edit", item, 2 * item, 2 * item)
    event("edit", item, 2 * item - 1, 2 * item - 1)
    event("edit", item, 2 * item, 2 * item)
    if (item % 5 == 0) event("delete", item, 2 * item, 2 * item)
    if (item % 10 == 0) {
      printf "{\"watermark\":\"%s\"}\n", time_at(2 * item)
      event("edit", item, 2 * item - 1, 2 * item - 3)
    }
    if (item % 500 == 0) {
      question("<http://www.wikidata.org/entity/Q" (item - 1) ">", "?")
      question("?", "<http://wikiba.se/ontology#quantityAmount>")
      question("?", "<http://www.w3.org/2000/01/rdf-schema#label>")
    }
    if (item == int(size / 2)) print "{\"mapping\":2}"
  }
}
