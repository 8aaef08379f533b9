"""How the tables of attributes and the kernel's descriptions say the same, for checks/described."""

import re

ROW = re.compile(r"\b(?:marked_)?row (\w+) (\d+) (\([^()]*(?:\([^()]*\))?[^()]*\)|\w+) [^-]*(?:-- (\w+)[\w, ]*)?$")
# what is read beside the rows
BESIDE = re.compile(r"at_number (\w+) (\d+)(?:, (?:Inside|shown_as form)\)|$)")
# the families of rows that stand for several
FAMILIES = {"family": ["Ip", "Ip6"]}
# how a codec, a layout or a field is said in the words of the descriptions
SHAPES = {"byte": "u8", "boolean": "u8", "le16": "u16", "le32": "u32", "le64": "u64", "signed32": "s32", "signed64": "s64", "uint": "uint",
          "be16": "u16 big endian", "be32": "u32 big endian", "be64": "u64 big endian", "ip_protocol_byte": "u8", "one_byte": "u8",
          "family_byte": "u8", "le_two": "u16", "le_four": "u32", "le_eight": "u64", "be_two": "u16 big endian", "be_four": "u32 big endian",
          "signed_four": "s32", "signed_one": "s8", "signed_two": "s16", "signed_eight": "s64", "bytes_field 4": "4 bytes", "bytes_field 6": "6 bytes", "bytes_field 16": "16 bytes", "bytes_field 32": "32 bytes",
          "words_field 16": "32 bytes",
          "octets4": "4 bytes", "octets16": "16 bytes", "octets": "{} bytes",
          "mpls_label": "4 bytes", "ip": "4 or 16 bytes", "addresses": "list of {} bytes", "raw": "bytes", "via_value": "bytes",
          "headed": "bytes", "kept": "bytes", "kept_case": "bytes", "generic_field": "20 bytes", "rate_field": "12 bytes",
          "peer": "bytes", "beside": "bytes", "bytes_case": "bytes", "name": "string", "kind_codec": "string", "flag": "flag", "dropped": "dropped"}
# what stands before another codec and says nothing of widths
WRAPPERS = {"exactly", "holding", "leading", "record", "variant", "written_alike", "chosen", "held", "has_data", "layout", "="}
# the file of what stands inside a list that has a codec of its own
LISTS = {"info_list": "crates/npr_link/specs/Info.antt", "netem": "crates/npr_tc_qdiscs/specs/NetemOption.antt"}
# the fields of structures that grew, and what says them in the descriptions
COUNTED = {"stats": "rtnl-link-stats", "stats64": "rtnl-link-stats64", "inet_devconf": "ipv4-devconf",
           "inet6_devconf": "ipv6-devconf", "inet6_stats": "ifla-inet6-stats", "icmp6_stats": "ifla-icmp6-stats"}
# the files that say what is inside under each kind, and the definition in the second
GOVERNED = {"linkinfo-data-msg": ("npr_link/specs/InfoKind", "npr_link/specs/InfoData", "case"),
            "linkinfo-member-data-msg": ("npr_link/specs/PortKind", "npr_link/specs/PortData", "case"),
            "options-msg": ("npr_tc_values/specs/Form", "npr_tc/specs/Options", "kind_of"),
            "act-options-msg": ("npr_tc_actions/specs/Form", "npr_tc_actions/specs/ActionOption", "case")}
# those of which the kinds that stand alone are compared
IN_PARTS = {"options-msg", "act-options-msg"}
# and what types and hints of the descriptions say
TOLD = {"bitfield32": "struct", "nest": "list", "sub-message": "list", "ipv4": "4 bytes", "ipv6": "16 bytes", "ipv4-or-v6": "4 or 16 bytes", "mac": "6 bytes"}
# structures of which a description has fields that are too narrow, and how many bytes they take in the kernel
SIZES = {"tc-ratespec": 12}
# types and names of attributes that hold nothing
EMPTY = {"pad", "unused", "unspec"}
NONE = "none"
