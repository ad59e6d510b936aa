# Counts replies by question and number:
#
#     paste -d '\t' requests replies | awk -f histogram.awk
#
# The parts (tablepart, octets) have no number: "octets" or "-" is counted.
# "0 none" is a tier's "none yet today"; "0 yes" and "0 no" are seasoned's;
# "0 03" is serve's, of a reply that begins with 03. The number of readrequest
# is its code, 1 or 2 where the request is refused. "25 at 2" is 25 at depth 2.
BEGIN { FS = "\t" }
{
    split($1, q, " ")
    split($NF, r, " ")
    question = q[1]
    if (question !~ /^(check|layout|table|tablepart|where|octets|number|writerange|writeoctets|writenumber|tier|seasoned|matrix|serve|readrequest|writerequest|readreply|writereply|readrange|weekday)$/)
        question = "(other)"
    answer = r[1]
    if (answer != "?" && (question == "tablepart" || question == "octets"))
        answer = (answer == "-") ? "-" : "octets"
    if (question == "tier" && answer == "0" && r[5] == "1")
        answer = "0 none"
    if (question == "seasoned" && answer == "0")
        answer = (r[5] == "1") ? "0 yes" : "0 no"
    if (question ~ /^(where|number|writeoctets|writenumber)$/ && answer == "25")
        answer = "25 at " r[4]
    if (question == "serve" && answer == "0")
        answer = "0 " substr(r[2], 1, 2)
    count[question "\t" answer]++
}
END { for (key in count) print key "\t" count[key] | "sort -t '\t' -k1,1 -k2,2n" }
