# Questions about a report of scan, as filters for jq:
#
#   shardscrub scan IMAGE >report.json
#   jq -r -L view 'include "questions"; lost_bytes(22)' report.json
#
# docs/READING.md has an example of each. Lines of text need -r, the others -c.

# A place of a report as words.
def place: "in extent \(.extent) at \(.offset)";

# The candidates without a tail, and those with one.
def candidates(is_wanted): [.extents[] | select(.tail > 0).extent] as $tails | .candidates[] | select(.extent | IN($tails[]) | is_wanted);
def candidates_without_tail: candidates(not);
def candidates_with_tail: candidates(.);

# The chunks without an owner in each candidate.
def garbage: .candidates[].extent as $extent | [.orphans[] | select(.extent == $extent)]
    | "extent \($extent): \(length) chunks, \(map(.length) | add // 0) bytes of payload";

# The bytes on unreadable pages of each payload whose locator is `unreadable`. The payload begins so many bytes into its chunk:
# 22 if the chunk is plain, 54 if it is sealed.
def lost_bytes($head): .geometry.page as $page | .extents[] as $extent | .dangling[]
    | select(.reason == "unreadable" and .extent == $extent.extent)
    | ($extent.bad[] * $page - .offset - $head) as $from | select($from < .length and $from + $page > 0)
    | "\(.owner), \(place): bytes \([$from, 0] | max) to \([$from + $page, .length] | min - 1) of \(.length)";

# The chunks without an owner.
def unowned: .orphans[] | "\(.uuid), \(.length) bytes, \(place)";

# The unreadable pages, as arguments of scan.
def unreadable_pages: (.super.bad[] | "0:\(.)"), (.extents[] | "\(.extent):\(.bad[])");

# The tails; and the unreadable pages that reach past a write pointer, which may hide one.
def tails: .extents[] | select(.tail > 0) | "extent \(.extent): \(.tail) bytes, the first of them at \(.tail_at)";
def pages_past_a_pointer: .geometry.page as $page | .extents[] | .pointer as $pointer
    | "\(.extent):\(.bad[] | select((. + 1) * $page > $pointer))";

# The hidden chunks of each extent. A chunk with several owners counts once.
def hidden_chunks: .hidden | unique_by([.extent, .offset]) | group_by(.extent)[]
    | "extent \(.[0].extent): \(length) chunks, at \(map(.offset | tostring) | join(", "))";

# The shards with a locator that is neither sound nor hidden. The input is the output of the command locators, which needs -R and -n:
#   shardscrub locators IMAGE | jq -R -n -r -L view 'include "questions"; damaged_shards'
def damaged_shards: [inputs / " " | select(.[0] == "shard")] | group_by(.[1])[]
    | (map(select(.[6] | IN("sound", "hidden"))) | length) as $good | select($good < length)
    | "\(if $good > 0 then "damaged" else "lost" end) \(.[0][1]): \($good) of \(length) chunks good";
