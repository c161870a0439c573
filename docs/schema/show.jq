# The lines of `ldm show`, of what `ldm show --json` says: jq -r -f docs/schema/show.jq
def striping: if .chunk == null then "" else " \(.chunk) \(.columns)" end;

"group \(.name) \(.guid) sequence \(.sequence) blocks \(.blocks) of \(.blocks_room)",
(.disks[] | "disk \(.id) \(.name) \(.guid) "
  + if .image == null then "missing" else "image \(.image) free \(.free)" end),
(.volumes[]
  | "volume \(.id) \(.name) \(.type) \(.size) \(.guid)",
    (.components[]
      | "  component \(.id) \(.name) \(.layout)" + if .layout == "basic" then "" else striping end,
        (.partitions[]
          | "    partition \(.id) \(.name) disk \(.disk_id) start \(.start) size \(.size) offset \(.offset)"
            + if .index == null then "" else " index \(.index)" end)))
