"""The texts of the files that scripts read."""
import json

TEXTS = {
    "m": '{"a":"48042","b":"0x0102"}', "open": "{", "array": "[]", "number": '{"a":1,"b":"0x"}',
    "zeros": '{"a":"01","b":"0x"}', "capitals": '{"a":"1","b":"0x0A"}',
    "great": '{"a":"65536","b":"0x"}', "five": '{"a":"1","b":"0x0102030405"}',
    "missing": '{"a":"1"}', "more": '{"a":"1","b":"0x","c":"1"}',
    "order": '{"b":"0x0102","a":"48042"}', "space": '{"a":"48042", "b":"0x0102"}',
    "feed": '{"a":"48042","b":"0x0102"}\n', "escape": '{"\\u0061":"48042","b":"0x0102"}',
    "twice": '{"a":"1","a":"48042","b":"0x0102"}', "none_0": '[0,"0"]', "third": "[2,null]",
    "small": '[1,"18446744073709551616"]', "nothing": "[0,null]", "chosen": '[1,"5"]',
    "bits": '"101"', "true": "true",
    "wide": '["0x%s"]' % ("00" * 32), "nine": json.dumps(["0"] * 9, separators=(",", ":")),
    "longest": '"%s1"' % ("0" * 61), "longer": '"%s1"' % ("0" * 62), "none": "",
}
